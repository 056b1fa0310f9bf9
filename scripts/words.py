"""The words of this repository's scripts: what each means is the text at the script's head."""

import argparse
import sys


class Parser(argparse.ArgumentParser):
    """Reads a script's words. `-h` and `--help` print the text at its head, to standard output; a word that it doesn't
    know is named, below the usage, which is the text's second part."""

    def __init__(self, text):
        usage = text.split("\n\n")[1]
        super().__init__(usage=usage.removeprefix("usage: "), allow_abbrev=False)
        self.text = text

    def format_help(self):
        return self.text.lstrip("\n")


def some(text):
    """A word that isn't empty."""
    if not text:
        raise argparse.ArgumentTypeError("it is empty")
    return text


# What is said where the toolchain is wanted and isn't there.
NO_TOOLCHAIN = "rt, Rattle's command, is not on PATH: README, 'The toolchain', tells of it"


class Refused(Exception):
    """Why something can't be done, in one line for a person."""


def say(who, text):
    """Tells a person something, on standard error."""
    print(f"{who}: {text}", file=sys.stderr, flush=True)
