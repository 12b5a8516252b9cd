"""What Rattle's sources and definitions say, read as text: constants, equations, arms of a match. What is looked for and not found is `Lost`."""

import os
import re


class Lost(Exception):
    """A source no longer has the form that is looked for."""


def number(text):
    """A number as Rattle spells it: decimal, behind 0x, or a power."""
    text = text.strip()
    power = re.fullmatch(r"(\d+) \^ (\d+)", text)
    if power:
        return int(power[1]) ** int(power[2])
    if not re.fullmatch(r"\d[\d_]*|0x[0-9a-f_]+", text):
        raise ValueError(text)
    return int(text, 0) if text.startswith("0x") else int(text.replace("_", ""))


class Source:
    """A file of a crate."""

    def __init__(self, root, path):
        self.path = path
        try:
            with open(os.path.join(root, path), encoding="utf-8") as file:
                self.text = file.read()
        except OSError as error:
            raise Lost(f"{path}: {error.strerror}") from None

    def lost(self, what):
        return Lost(f"{self.path}: {what} is not found in the form that this check knows")

    def one(self, pattern, what):
        """The groups of a pattern that stands there once."""
        found = re.findall(pattern, self.text, re.M | re.S)
        if len(found) != 1:
            raise self.lost(f"{what}, once and not {len(found)} times,")
        return found[0]

    def number(self, pattern, what):
        """A number, which is the one group of a pattern that stands there once."""
        try:
            return number(self.one(pattern, what).replace(",", ""))
        except ValueError:
            raise self.lost(what) from None

    def all(self, pattern, what):
        found = re.findall(pattern, self.text, re.M)
        if not found:
            raise self.lost(what)
        return found

    def constants(self):
        """The numbers of `pub const NAME: TYPE = N;` by their names; each `pub const` that is no text has to be one."""
        found = {name: number(value) for name, value in self.all(r"^pub const ([A-Z_]+): (?:u8|u16|u32|u64|usize) = ([0-9a-fx_]+);$", "a constant")}
        declared = {name for name, kind in self.all(r"^pub const ([A-Z_]+): ([^=]+?)\s*=", "a constant") if "str" not in kind}
        if declared != set(found):
            raise self.lost(f"the number of {', '.join(sorted(declared ^ set(found)))}")
        return found

    def equations(self, name):
        """The equations of a definition: (arguments, value), each value on one line."""
        found = re.findall(rf"^{name}((?: [^=\n]*?)?) =\s+(\S.*(?:\n[ \t]+\S.*)*)$", self.text, re.M)
        if not found:
            raise self.lost(f"a definition of {name}")
        return [(arguments.strip(), " ".join(value.split())) for arguments, value in found]

    def numbers(self, name):
        """A definition by cases whose values are numbers: {arguments: number}."""
        try:
            return {arguments: number(value) for arguments, value in self.equations(name)}
        except ValueError as other:
            raise self.lost(f"a number of {name}, where {other} stands,") from None

    def lists(self, name):
        """A definition by cases whose values are lists: {arguments: [items]}."""
        return {arguments: items(value) for arguments, value in self.equations(name)}

    def texts(self, name):
        """A definition by cases whose values are texts: {arguments: text}."""
        found = {arguments: re.fullmatch(r'codes "([^"]*)"', value) for arguments, value in self.equations(name)}
        if not all(found.values()):
            raise self.lost(f"the texts of {name}")
        return {arguments: text[1] for arguments, text in found.items()}

    def body(self, name):
        """The text of a function, to the end of its body."""
        begin = re.search(rf"^( *)(?:pub(?:\([a-z]+\))? )?(?:const )?fn {name}\b", self.text, re.M)
        end = begin and self.text.find(f"\n{begin[1]}}}\n", begin.end())
        if not begin or end < 0:
            raise self.lost(f"the function {name}")
        return self.text[begin.start() : end]

    def arms(self, name):
        """The arms of the match in a function, whose values are on one line: {variant: value}, each variant alone."""
        arms = {}
        for variants, value in re.findall(r"^\s*((?:\w+::\w+(?:\([^)]*\))?\s*\|?\s*)+)=> ([^{\n]+),$", self.body(name), re.M):
            for variant in variants.split("|"):
                arms[re.sub(r"\(.*", "", variant.strip()).split("::")[-1]] = value
        if not arms:
            raise self.lost(f"the arms of {name}")
        return arms

    def numbered(self, name):
        """The arms of a function that answers numbers, some of them in `Some(..)`."""
        found = {variant: re.fullmatch(r"(?:Some\()?(?:size (?:!=|<) )?([0-9a-fx_]+)\)?", value) for variant, value in self.arms(name).items()}
        return {variant: number(value[1]) for variant, value in found.items() if value}

    def documented(self, letters):
        """Variants whose comment begins with a code of these letters: {number: variant}."""
        rows = self.all(rf"^ +/// {letters}(\d+)\b[^\n]*\n(?: +///[^\n]*\n)* +(\w+)(?:\([^)]*\))?,$", f"a variant with {letters} in its comment")
        return {int(number_): variant for number_, variant in rows}


def items(value):
    """The items of a list."""
    parts = [it.strip() for it in value.split("∷")]
    return [it for it in parts if it != "[]"]
