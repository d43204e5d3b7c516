//! Devices in memory, and journals on them (docs/FORMATS.md, docs/TROUBLE.md).

use crate::sha256::{digest_of, Digest};

// The version is the newest: a device in memory has no older journal.
const START: [u8; 9] = *b"BAYOUJNL\x03";
const HEADER_BYTES: usize = START.len() + 1;
const LENGTH_BYTES: usize = 2;
const DIGEST_BYTES: usize = 32;
const MAX_BODY_BYTES: usize = 8_192;

/// A call of the device failed, or what it has is no journal of this server's.
pub struct JournalFault;

/// The call that fails, counted from now on, and how many bytes it adds all the same.
#[derive(Clone, Copy)]
pub struct Fuse {
    pub calls: u32,
    pub kept: usize,
}

#[derive(Default)]
pub struct Device {
    bytes: Vec<u8>,
    fuse: Option<Fuse>,
}

impl Device {
    pub fn set_fuse(&mut self, fuse: Fuse) {
        self.fuse = Some(fuse);
    }

    pub fn lose(&mut self, count: usize) {
        self.bytes.truncate(self.bytes.len().saturating_sub(count));
    }

    /// One call: the fuse that goes off at it, if one does.
    fn call(&mut self) -> Option<Fuse> {
        let fuse = self.fuse.as_mut()?;
        fuse.calls -= 1;
        if fuse.calls > 0 {
            return None;
        }
        self.fuse.take()
    }

    /// One call that fails where a fuse goes off at it.
    fn try_call(&mut self) -> Result<(), JournalFault> {
        match self.call() {
            Some(_) => Err(JournalFault),
            None => Ok(()),
        }
    }

    fn read(&mut self) -> Result<Vec<u8>, JournalFault> {
        self.try_call()?;
        Ok(self.bytes.clone())
    }

    fn append(&mut self, piece: &[u8]) -> Result<(), JournalFault> {
        if let Some(fuse) = self.call() {
            self.bytes
                .extend_from_slice(&piece[..fuse.kept.min(piece.len())]);
            return Err(JournalFault);
        }
        self.bytes.extend_from_slice(piece);
        Ok(())
    }

    fn sync(&mut self) -> Result<(), JournalFault> {
        self.try_call()
    }

    fn cut(&mut self, length: usize) -> Result<(), JournalFault> {
        self.try_call()?;
        self.bytes.truncate(length);
        Ok(())
    }
}

fn header_of(server: u8) -> [u8; HEADER_BYTES] {
    let mut header = [server; HEADER_BYTES];
    header[..START.len()].copy_from_slice(&START);
    header
}

/// The digest of the entry after the one with the digest `before`.
fn link(before: &Digest, body: &[u8]) -> Digest {
    digest_of(&[before, &(body.len() as u16).to_be_bytes(), body])
}

/// Where the bodies of a content lie, and which digest stands before and after each of them.
struct Chain {
    ends: Vec<usize>,
    digests: Vec<Digest>,
}

impl Chain {
    fn of(content: &[u8], server: u8) -> Chain {
        let mut chain = Chain {
            ends: vec![HEADER_BYTES],
            digests: vec![digest_of(&[&header_of(server)])],
        };
        while let Some((end, digest)) = chain.next(content) {
            chain.ends.push(end);
            chain.digests.push(digest);
        }
        chain
    }

    fn last(&self) -> (usize, &Digest) {
        let at = self.ends.len() - 1;
        (self.ends[at], &self.digests[at])
    }

    /// The next entry's end and its digest, where the entry is valid.
    fn next(&self, content: &[u8]) -> Option<(usize, Digest)> {
        let (start, before) = self.last();
        let rest = content.get(start..)?;
        let length = usize::from(u16::from_be_bytes(
            rest.get(..LENGTH_BYTES)?.try_into().ok()?,
        ));
        if !(1..=MAX_BODY_BYTES).contains(&length) {
            return None;
        }
        let (body, behind) = rest[LENGTH_BYTES..].split_at_checked(length)?;
        let digest = link(before, body);
        let end = start + LENGTH_BYTES + length + DIGEST_BYTES;
        (behind.get(..DIGEST_BYTES)? == digest).then_some((end, digest))
    }
}

/// A journal as it was opened.
pub struct Opened {
    content: Vec<u8>,
    chain: Chain,
    /// How many bytes stood after the chain.
    pub dropped: usize,
}

impl Opened {
    pub fn bodies(&self) -> impl Iterator<Item = &[u8]> {
        self.chain
            .ends
            .windows(2)
            .map(|ends| &self.content[ends[0] + LENGTH_BYTES..ends[1] - DIGEST_BYTES])
    }

    pub fn journal(&self) -> Journal {
        Journal {
            last: *self.chain.last().1,
            entry: Vec::new(),
        }
    }

    /// Whether its first so many entries are those that the journal had.
    pub fn begins_with(&self, journal: &Journal, count: usize) -> bool {
        self.chain.digests.get(count) == Some(&journal.last)
    }
}

/// Reads the device, and leaves the header and the longest chain there.
pub fn open(device: &mut Device, server: u8) -> Result<Opened, JournalFault> {
    let content = device.read()?;
    let header = header_of(server);
    let is_new = content.len() < HEADER_BYTES;
    let is_own = if is_new {
        START.starts_with(&content)
    } else {
        content.starts_with(&header)
    };
    if !is_own {
        return Err(JournalFault);
    }
    let chain = Chain::of(&content, server);
    let end = if is_new { 0 } else { chain.last().0 };
    let dropped = content.len() - end;
    if dropped > 0 {
        device.cut(end)?;
    }
    if is_new {
        device.append(&header)?;
    }
    device.sync()?;
    Ok(Opened {
        content,
        chain,
        dropped,
    })
}

/// What the next entry goes on from.
pub struct Journal {
    last: Digest,
    // Where an entry is put together.
    entry: Vec<u8>,
}

impl Journal {
    pub fn append(&mut self, device: &mut Device, body: &[u8]) -> Result<(), JournalFault> {
        let digest = link(&self.last, body);
        self.entry.clear();
        self.entry.extend((body.len() as u16).to_be_bytes());
        self.entry.extend_from_slice(body);
        self.entry.extend(digest);
        device.append(&self.entry)?;
        device.sync()?;
        self.last = digest;
        Ok(())
    }
}

#[cfg(test)]
mod tests {
    use super::*;

    /// The journal of docs/FORMATS.md: that of server 2 with the bodies `00` and `0102`.
    const JOURNAL: &str = "4241594f554a4e4c0302\
        00010043d1161222cb85efaba938d2c9ba3de88aad750dea03dfebad484f0b210d3116\
        0002010236b1d7eb34fb45a24f051e2a92e56870598393ea5f27e961b1d3725ed3c2cb93";

    fn hexadecimal(bytes: &[u8]) -> String {
        bytes.iter().map(|byte| format!("{byte:02x}")).collect()
    }

    #[test]
    fn a_journal_has_the_bytes_of_the_page() {
        let mut device = Device::default();
        let opened = open(&mut device, 2);
        let mut journal = opened.map(|opened| opened.journal());
        for body in [&[0][..], &[1, 2]] {
            let added = journal
                .as_mut()
                .map(|journal| journal.append(&mut device, body));
            assert!(matches!(added, Ok(Ok(()))));
        }
        assert_eq!(hexadecimal(&device.bytes), JOURNAL);
        let bodies = open(&mut device, 2).map(|opened| opened.bodies().map(hexadecimal).collect());
        assert_eq!(
            bodies.ok(),
            Some(vec!["00".to_string(), "0102".to_string()])
        );
    }
}
