"""The texts of the tree's pages, and the blocks of code in them, for the checks."""

import re

from kit import ROOT

DIALOGUE = re.compile(r"```text\n(connect.*?)```\n+prints[^\n]*\n+```text\n(.*?)```", re.S)


def text_of(path):
    """The text of a file of the tree."""
    with open(f"{ROOT}/{path}", encoding="utf-8") as file:
        return file.read()


def blocks_of(page, language):
    """The blocks of code of a page in this language, in their order."""
    return re.findall(rf"^```{language}\n(.*?)^```$", text_of(page), re.S | re.M)


def dialogues():
    """The dialogues of frames of docs/FORMATS.md: each the script and what it prints."""
    return DIALOGUE.findall(text_of("docs/FORMATS.md"))
