"""The arguments of a script whose docstring is its help. A wrong call ends with status 2 and one line on standard error."""
import argparse
import os
import re
import sys


class Value(argparse.Action):
    """An option with a value, or words without an option."""
    is_given = False

    def __call__(self, parser, options, value, spelling=None):
        if self.is_given and spelling:
            parser.error(f"{spelling} is given twice")
        self.is_given = True
        setattr(options, self.dest, value)


class Flag(Value):
    """An option without a value."""

    def __init__(self, **how):
        super().__init__(nargs=0, default=False, **how)

    def __call__(self, parser, options, value, spelling=None):
        super().__call__(parser, options, True, spelling)


class Parser(argparse.ArgumentParser):
    """Takes options by their whole names, each at most once. The second word of the line "usage:" is the script."""

    def __init__(self, text):
        self.text = text
        super().__init__(prog=re.search(r"^usage: (\S+)", text, re.MULTILINE)[1], allow_abbrev=False)
        self.register("action", None, Value)
        self.register("action", "store_true", Flag)

    def format_help(self):
        return self.text

    def error(self, message):
        """Ends the script because of a wrong call."""
        print(f"{os.path.basename(self.prog)}: {message.removeprefix('argument ')}; {self.prog} --help says more", file=sys.stderr)
        sys.exit(2)

    def parse_args(self, args=None, namespace=None):
        options, rest = self.parse_known_args(args, namespace)
        for word in rest:
            self.error(f"there is no option {word}" if word.startswith("-") else f"unexpected word {word}")
        return options


def whole_number(word):
    """A whole number above 0, as the value of an option."""
    if not re.fullmatch("0*[1-9][0-9]{0,8}", word):
        raise argparse.ArgumentTypeError(f"{word} is not a whole number from 1 to 999999999")
    return int(word)
