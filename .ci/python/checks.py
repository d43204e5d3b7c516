"""How many checks passed, and how many failed."""


class Checks:
    def __init__(self):
        self.passed = self.failed = 0

    def that(self, name, told, expected):
        if told == expected:
            self.passed += 1
            return
        self.failed += 1
        print("%s: NOT as it must be: %.600r, not %.600r" % (name, told, expected))
