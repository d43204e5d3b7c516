//! JSON, as far as lines need it (docs/FORMATS.md).

use std::borrow::Cow;

/// How many arrays and objects may be nested.
const MAX_DEPTH: u32 = 127;

pub enum Json<'a> {
    /// What no line has in any place: null, true, false, floats, and integers that don't fit `i64`.
    Other,
    Integer(i64),
    Text(Cow<'a, str>),
    Array(Vec<Json<'a>>),
    /// Its members, as they come. Of equal ones the last counts.
    Object(Vec<(Cow<'a, str>, Json<'a>)>),
}

/// The value that the line is.
pub fn parse(line: &[u8]) -> Option<Json<'_>> {
    let text = std::str::from_utf8(line).ok()?;
    let mut reader = Reader { text, at: 0 };
    let value = reader.value(MAX_DEPTH)?;
    reader.skip_blanks();
    (reader.at == text.len()).then_some(value)
}

struct Reader<'a> {
    text: &'a str,
    at: usize,
}

impl<'a> Reader<'a> {
    fn peek(&self) -> Option<u8> {
        self.text.as_bytes().get(self.at).copied()
    }

    fn eat(&mut self, byte: u8) -> bool {
        let is_there = self.peek() == Some(byte);
        self.at += usize::from(is_there);
        is_there
    }

    fn skip_blanks(&mut self) {
        while matches!(self.peek(), Some(b' ' | b'\t' | b'\n' | b'\r')) {
            self.at += 1;
        }
    }

    fn value(&mut self, depth: u32) -> Option<Json<'a>> {
        self.skip_blanks();
        match self.peek()? {
            b'[' => self.array(depth.checked_sub(1)?),
            b'{' => self.object(depth.checked_sub(1)?),
            b'"' => Some(Json::Text(self.string()?)),
            b't' => self.word("true"),
            b'f' => self.word("false"),
            b'n' => self.word("null"),
            _ => self.number(),
        }
    }

    fn word(&mut self, word: &str) -> Option<Json<'a>> {
        let is_there = self.text[self.at..].starts_with(word);
        self.at += word.len();
        is_there.then_some(Json::Other)
    }

    /// After a member: whether another one comes. None where neither a comma nor the closing byte does.
    fn goes_on(&mut self, closing: u8) -> Option<bool> {
        self.skip_blanks();
        if self.eat(b',') {
            return Some(true);
        }
        self.eat(closing).then_some(false)
    }

    fn array(&mut self, depth: u32) -> Option<Json<'a>> {
        self.at += 1;
        self.skip_blanks();
        let mut members = Vec::new();
        if self.eat(b']') {
            return Some(Json::Array(members));
        }
        loop {
            members.push(self.value(depth)?);
            if !self.goes_on(b']')? {
                return Some(Json::Array(members));
            }
        }
    }

    fn object(&mut self, depth: u32) -> Option<Json<'a>> {
        self.at += 1;
        self.skip_blanks();
        let mut members = Vec::new();
        if self.eat(b'}') {
            return Some(Json::Object(members));
        }
        loop {
            self.skip_blanks();
            let name = self.string()?;
            self.skip_blanks();
            if !self.eat(b':') {
                return None;
            }
            members.push((name, self.value(depth)?));
            if !self.goes_on(b'}')? {
                return Some(Json::Object(members));
            }
        }
    }

    /// The text up to the next quotation mark, backslash or control character.
    fn plain(&mut self) -> &'a str {
        let from = self.at;
        while matches!(self.peek(), Some(byte) if byte >= b' ' && byte != b'"' && byte != b'\\') {
            self.at += 1;
        }
        &self.text[from..self.at]
    }

    fn string(&mut self) -> Option<Cow<'a, str>> {
        if !self.eat(b'"') {
            return None;
        }
        let mut text = Cow::Borrowed(self.plain());
        while self.eat(b'\\') {
            let character = self.escaped()?;
            let rest = self.plain();
            let owned = text.to_mut();
            owned.push(character);
            owned.push_str(rest);
        }
        self.eat(b'"').then_some(text)
    }

    fn escaped(&mut self) -> Option<char> {
        let byte = self.peek()?;
        self.at += 1;
        Some(match byte {
            b'"' | b'\\' | b'/' => char::from(byte),
            b'b' => '\u{8}',
            b'f' => '\u{c}',
            b'n' => '\n',
            b'r' => '\r',
            b't' => '\t',
            b'u' => return self.unicode(),
            _ => return None,
        })
    }

    fn unicode(&mut self) -> Option<char> {
        let code = self.four_digits()?;
        if !(0xd800..0xdc00).contains(&code) {
            return char::from_u32(code);
        }
        if !(self.eat(b'\\') && self.eat(b'u')) {
            return None;
        }
        let low = self.four_digits()?;
        if !(0xdc00..0xe000).contains(&low) {
            return None;
        }
        char::from_u32(0x10000 + ((code - 0xd800) << 10) + (low - 0xdc00))
    }

    fn four_digits(&mut self) -> Option<u32> {
        let mut number = 0;
        for _ in 0..4 {
            number = 16 * number + char::from(self.peek()?).to_digit(16)?;
            self.at += 1;
        }
        Some(number)
    }

    fn digits(&mut self) -> Option<&'a str> {
        let from = self.at;
        while matches!(self.peek(), Some(b'0'..=b'9')) {
            self.at += 1;
        }
        (self.at > from).then(|| &self.text[from..self.at])
    }

    fn number(&mut self) -> Option<Json<'a>> {
        let from = self.at;
        self.eat(b'-');
        let whole = self.digits()?;
        if whole.len() > 1 && whole.starts_with('0') {
            return None;
        }
        let mut is_integer = true;
        if self.eat(b'.') {
            is_integer = false;
            self.digits()?;
        }
        if self.eat(b'e') || self.eat(b'E') {
            is_integer = false;
            let _ = self.eat(b'+') || self.eat(b'-');
            self.digits()?;
        }
        number_of(&self.text[from..self.at], is_integer)
    }
}

fn number_of<'a>(text: &str, is_integer: bool) -> Option<Json<'a>> {
    if is_integer && text != "-0" {
        if let Ok(number) = text.parse() {
            return Some(Json::Integer(number));
        }
    }
    let float: f64 = text.parse().ok()?;
    float.is_finite().then_some(Json::Other)
}
