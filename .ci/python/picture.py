"""A PNG made smaller: of as many colours as one byte counts (PNG, third edition, sections 9 and 11)."""
import collections
import struct
import zlib

COLOURS = 256
# A quarter of them is for those whose channels differ by more, which are few on a page, and say much.
BRIGHT = 70


def chunks(data):
    at = 8
    while at < len(data):
        length, kind = struct.unpack(">I4s", data[at:at + 8])
        yield kind, data[at + 8:at + 8 + length]
        at += 12 + length


def rows(data):
    """The width of a picture of 8 bits a channel with no interlacing, and its rows of colours."""
    found = collections.defaultdict(bytes)
    for kind, body in chunks(data):
        found[kind] += body
    width, height, depth, colour, _, _, interlaced = struct.unpack(">IIBBBBB", found[b"IHDR"])
    assert (depth, interlaced) == (8, 0) and colour in (2, 6)
    step = 3 if colour == 2 else 4
    raw, size, before, made = zlib.decompress(found[b"IDAT"]), width * step, bytes(width * step), []
    for row in range(height):
        kind, line = raw[row * (size + 1)], bytearray(raw[row * (size + 1) + 1:(row + 1) * (size + 1)])
        for at in range(size):
            left, up, corner = line[at - step] if at >= step else 0, before[at], before[at - step] if at >= step else 0
            if kind == 1:
                line[at] = line[at] + left & 255
            elif kind == 2:
                line[at] = line[at] + up & 255
            elif kind == 3:
                line[at] = line[at] + (left + up) // 2 & 255
            elif kind == 4:
                guess = left + up - corner
                near = min((abs(guess - left), 0, left), (abs(guess - up), 1, up), (abs(guess - corner), 2, corner))[2]
                line[at] = line[at] + near & 255
        before = bytes(line)
        made.append([tuple(line[at:at + 3]) for at in range(0, size, step)])
    return width, made


def chunk(kind, body):
    return struct.pack(">I", len(body)) + kind + body + struct.pack(">I", zlib.crc32(kind + body))


def smaller(source, target):
    """Writes the picture with its commonest colours alone; each other is the nearest of these."""
    with open(source, "rb") as file:
        width, lines = rows(file.read())
    count = collections.Counter(colour for line in lines for colour in line)
    bright = [colour for colour, _ in count.most_common() if max(colour) - min(colour) > BRIGHT][:COLOURS // 4]
    kept = bright + [colour for colour, _ in count.most_common(COLOURS) if colour not in bright][:COLOURS - len(bright)]
    place = {colour: at for at, colour in enumerate(kept)}
    for colour in count:
        if colour not in place:
            place[colour] = min(range(len(kept)), key=lambda at: sum((one - other) ** 2 for one, other in zip(colour, kept[at])))
    body = b"".join(b"\0" + bytes(place[colour] for colour in line) for line in lines)
    with open(target, "wb") as file:
        file.write(b"\x89PNG\r\n\x1a\n" + chunk(b"IHDR", struct.pack(">IIBBBBB", width, len(lines), 8, 3, 0, 0, 0))
                   + chunk(b"PLTE", b"".join(bytes(colour) for colour in kept)) + chunk(b"IDAT", zlib.compress(body, 9)) + chunk(b"IEND", b""))
