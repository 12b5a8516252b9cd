"""The words that a check is started with."""

import os
import sys


def number_of(words, option, otherwise=1):
    """The number behind an option, which is taken out of the words, or the other one where it is not there."""
    if option not in words:
        return otherwise
    at = words.index(option)
    number = int(words[at + 1])
    del words[at : at + 2]
    return number


def programs_of(words, usage, *counts):
    """The paths of the programs that the words name. It ends with the usage where there are not as many as one of these counts."""
    if len(words) not in counts:
        sys.exit(usage)
    return [os.path.abspath(word) for word in words]
