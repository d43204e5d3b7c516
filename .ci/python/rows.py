"""Requests beside their replies, byte for byte, as the examples of docs/FORMATS.md spell them."""

# The words in which rows are said: tags of the first session in the first run; vectors; and programs, P putting 1 at `room`. V counts the first server's first Write, and so on.
WORDS = {
    "T1": "00 00000001 00000001",
    "T2": "00 00000001 00000002",
    "T3": "00 00000001 00000003",
    "T4": "00 00000001 00000004",
    "T5": "00 00000001 00000005",
    "T6": "00 00000001 00000006",
    "T7": "00 00000001 00000007",
    "0*64": "00" * 64,
    "V": "00000001" + "00" * 60,
    "V2": "00000002" + "00" * 60,
    "V3": "00000003" + "00" * 60,
    "V4": "00000004" + "00" * 60,
    "V5": "00000005" + "00" * 60,
    "V9": "00010000" + "00" * 60,
    "U": "00000000" + "00000001" + "00" * 56,
    "H": "00" * 60 + "00000001",
    "P": "00010104726f6f6d01010000000000000001" + "00",
    # books: where `room` is absent it is taken; else `hall` is, by another name
    "Q": "01" + "02 04726f6f6d" + "01" + "01 04726f6f6d 01 02 03 616e6e" + "01" + "00" + "01" + "01 0468616c6c 01 02 03 616e6e",
    # adds 4 to `room`, where it is 1 at least, then copies it to `sum`
    "R": "01" + "03 04726f6f6d 0000000000000001" + "02" + "01 04726f6f6d 03 04726f6f6d 0000000000000004" + "01 0373756d 02 04726f6f6d" + "00",
    # where no key begins with `room` it puts 1 there; else, where there are at most three keys at all, it takes `hall` away
    "S": "01" + "04 04726f6f6d 00000000" + "01" + "01 04726f6f6d 01 01 0000000000000001" + "01" + "01" + "04 00 00000003" + "01" + "02 0468616c6c",
    # what an older program sent: a vector of eight counts
    "0*32": "00" * 32,
}


def said(text):
    """The bytes that the words say."""
    return b"".join(bytes.fromhex(WORDS.get(word, word)) for word in text.split())


# What a new server is asked, one request after another, and what it replies.
ROWS = [(said(asked), said(told)) for asked, told in [
    # nothing is held
    ("0046 01 0*64 04 726f6f6d", "0042 11 00 0*64"),
    ("0043 01 V 01 61", "0042 13 02 0*64"),
    ("0001 04", "0005 16 00000000"),
    ("0041 05 0*64", "0005 16 00000000"),
    ("0001 03", "0002 13 05"),
    # a Write, and reads that need it or more
    ("005d 06 T1 0*64 P", "004a 12 00 00000001 00000001 0*64"),
    ("0046 01 V 04 726f6f6d", "004a 11 01 0000000000000001 V"),
    ("0046 01 0*64 04 726f6f6d", "004a 11 01 0000000000000001 V"),
    ("0046 01 V 04 68616c6c", "0042 11 00 V"),
    ("0046 01 V2 04 726f6f6d", "0042 13 02 V"),
    ("0046 01 V9 04 726f6f6d", "0042 13 02 V"),
    # what another server is to have accepted
    ("0046 01 U 04 726f6f6d", "0042 13 02 V"),
    ("0046 01 H 04 726f6f6d", "0042 13 02 V"),
    ("005d 06 T2 U P", "0042 13 02 V"),
    ("005d 06 T3 V2 P", "0042 13 02 V"),
    # what is held
    ("0001 04", "005d 15 00 00000001 00000001 0*64 P 0005 16 00000001"),
    ("0041 05 0*64", "005d 15 00 00000001 00000001 0*64 P 0005 16 00000001"),
    ("0041 05 U", "005d 15 00 00000001 00000001 0*64 P 0005 16 00000001"),
    ("0041 05 V", "0005 16 00000000"),
    # a Write whose check fails, which changes another key; and one that adds
    ("006d 06 T4 V Q", "004a 12 00 00000002 00000002 V"),
    ("0046 01 V2 04 68616c6c", "0046 11 02 03 616e6e V2"),
    ("0046 01 V2 04 726f6f6d", "004a 11 01 0000000000000001 V2"),
    ("007a 06 T5 0*64 R", "004a 12 00 00000003 00000003 V2"),
    ("0045 01 V3 03 73756d", "004a 11 01 0000000000000005 V3"),
    ("0041 05 V", "006d 15 00 00000002 00000002 V Q 007a 15 00 00000003 00000003 V2 R 0005 16 00000002"),
    ("0041 05 V3", "0005 16 00000000"),
    # a Write whose check counts one key too many, and whose merge counts all three; and the same where there are two
    ("0075 06 T6 0*64 S", "004a 12 00 00000004 00000004 V3"),
    ("0046 01 V4 04 68616c6c", "0042 11 00 V4"),
    ("0046 01 V4 04 726f6f6d", "004a 11 01 0000000000000005 V4"),
    ("0075 06 T7 0*64 S", "004a 12 00 00000005 00000005 V4"),
    ("0041 05 V3", "0075 15 00 00000004 00000004 V3 S 0075 15 00 00000005 00000005 V4 S 0005 16 00000002"),
    ("0001 03", "0002 13 05"),
]]

# The Writes that the journal then has, and its entries.
BODIES = [said("00 00000001 00000001 0*64 P"), said("00 00000002 00000002 V Q"), said("00 00000003 00000003 V2 R"),
          said("00 00000004 00000004 V3 S"), said("00 00000005 00000005 V4 S")]
RECORDS = [said("01 T1") + BODIES[0], said("01 T4") + BODIES[1], said("01 T5") + BODIES[2], said("01 T6") + BODIES[3], said("01 T7") + BODIES[4]]

# What is no request: streams that end the connection without a reply.
NO_REQUESTS = [said(text) for text in [
    # faults of frames
    "0000", "2001", "ffff", "0001 7f", "0001 00", "0001 02", "0001 07", "0001 10", "0001 17", "0001 01", "0002 03 00", "0002 04 00", "0042 05 0*64 00",
    "0040 05 " + "00 " * 63, "0047 01 0*64 04 726f6f6d 00", "0042 01 0*64 00", "0043 01 0*64 01 41", "0043 01 0*64 02 61",
    "0041 05 00010001 " + "00 " * 60, "005e 06 T1 0*64 P 00", "005c 06 T1 0*64 " + WORDS["P"][:-2],
    # frames of an older program
    "0026 01 0*32 04 726f6f6d", "003d 06 T1 0*32 P", "0021 05 0*32",
    # conditions that there aren't
    "0057 06 T1 0*64 01 05 04726f6f6d 00000000 00 00", "0074 06 T1 0*64 01 04 21 " + "61" * 33 + " 00000000 00 00",
    "0054 06 T1 0*64 01 04 01 41 00000000 00 00", "0052 06 T1 0*64 01 04 00 000000 00 00",
    # a Write with no tag, or with one that there can't be
    "0054 02 0*64 P", "005d 02 T1 0*64 P", "0001 06", "0054 06 0*64 P", "005d 06 20 00000001 00000001 0*64 P", "005d 06 ff 00000001 00000001 0*64 P",
    "005d 06 00 00000000 00000001 0*64 P", "005d 06 00 00000001 00000000 0*64 P",
    # replies
    "0042 11 00 0*64", "004a 12 00 00000001 00000001 0*64", "0002 13 01", "0002 13 09", "0042 13 02 V", "0002 14 00", "0007 14 01 00 00000001",
    "005d 15 00 00000001 00000001 0*64 P", "0005 16 00000001",
]]
