"""The limits of the program that scripts reach, and its words, each once (docs/FORMATS.md)."""

SERVERS = 16
SESSIONS = 32
MAX_WRITES = 65_536
MAX_ENTRIES = 65_536
MAX_CONDITIONS = 8
MAX_OPS = 8
MAX_ALTERNATIVES = 4
MAX_TEXT_BYTES = 32
GUARANTEES = ["ryw", "mr", "wfr", "mw"]
CONDITIONS = ["absent", "equals", "atleast", "atmost"]
MAX_KEYS_COUNTED = 2**32 - 1
