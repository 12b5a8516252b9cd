"""Reads the texts of this folder: records of one form, strictly. What is wrong is told with the file and the line.

A record begins with a line `WORD NAME` at the left margin. Its lines are indented by four columns: a key and its value. A line that is indented further goes
on with the value before it. A line that begins with `#` is a comment, and an empty line is for the eye.
"""

import os
import re

ONE, MAYBE, MANY = "one", "maybe", "many"


class Bad(Exception):
    """What is wrong with a text, with its file and its line."""


class Record:
    """One record: its word, its name, and the values of its keys with their lines."""

    def __init__(self, path, line, word, name):
        self.path, self.line, self.word, self.name = path, line, word, name
        self.values = {}

    def bad(self, what, line=None):
        return Bad(f"{self.path}:{line or self.line}: {what}")

    def all(self, key):
        """The values of a key, in order."""
        return [value for value, _ in self.values.get(key, ())]

    def maybe(self, key, otherwise=None):
        return self.all(key)[0] if key in self.values else otherwise

    def one(self, key):
        return self.all(key)[0]

    def line_of(self, key, place=0):
        return self.values[key][place][1]

    def number(self, key):
        """The value of a key that is a whole number, in decimal or behind 0x."""
        try:
            return number_in(self.one(key))
        except ValueError:
            raise self.bad(f"{key}: wanted is a number, as 63 or 0x3f; not {self.one(key)}", self.line_of(key)) from None


def number_in(text):
    """A decimal, or hexadecimal digits behind 0x; underscores may part its digits."""
    if not re.fullmatch(r"[0-9][0-9_]*|0x[0-9a-f_]+", text):
        raise ValueError(text)
    return int(text, 16 if text.startswith("0x") else 10)


def lines_of(path, text):
    """The lines that are no comment and not empty: each with its number, its indentation and its words."""
    for number, line in enumerate(text.split("\n"), 1):
        if "\t" in line or line != line.rstrip():
            raise Bad(f"{path}:{number}: a tab, or a space at the end of the line")
        if line and not line.startswith("#"):
            yield number, len(line) - len(line.lstrip()), line.strip()


def records_in(path, text, forms):
    """The records of a text. `forms` has of each word the keys that its records have, each ONE, MAYBE or MANY."""
    records = []
    key = None
    for number, indent, line in lines_of(path, text):
        if indent == 0:
            word, _, name = line.partition(" ")
            if word not in forms or not name.strip():
                raise Bad(f"{path}:{number}: wanted is {', '.join(sorted(forms))} and a name; not {line}")
            records.append(Record(path, number, word, name.strip()))
            key = None
        elif not records:
            raise Bad(f"{path}:{number}: a line of a record, and none has begun")
        elif indent == 4:
            key = put_line(records[-1], forms[records[-1].word], number, line)
        elif indent >= 8 and key:
            value, first = records[-1].values[key][-1]
            records[-1].values[key][-1] = f"{value} {line}", first
        else:
            raise Bad(f"{path}:{number}: wanted is an indentation of 4 columns, or of 8 where a value goes on; not of {indent}")
    for record in records:
        for name in (it for it, count in forms[record.word].items() if count == ONE and it not in record.values):
            raise record.bad(f"{record.word} {record.name} lacks a line {name}")
    return records


def put_line(record, form, number, line):
    """Puts a line `KEY VALUE` into a record; answers the key."""
    key, _, value = line.partition(" ")
    if key not in form:
        raise record.bad(f"{record.word} {record.name}: wanted is {', '.join(sorted(form)) or 'nothing'}; not {key}", number)
    if key in record.values and form[key] != MANY:
        raise record.bad(f"{record.word} {record.name}: a second line {key}", number)
    if not value.strip():
        raise record.bad(f"{record.word} {record.name}: {key} has no value", number)
    record.values.setdefault(key, []).append((value.strip(), number))
    return key


def read(folder, name, forms):
    """The records of a file of the folder."""
    path = f"protocol/{name}"
    with open(os.path.join(folder, name), encoding="utf-8") as file:
        records = records_in(path, file.read(), forms)
    seen = {}
    for record in records:
        if (record.word, record.name) in seen:
            raise record.bad(f"{record.word} {record.name} stands in line {seen[record.word, record.name]}, too")
        seen[record.word, record.name] = record.line
    return records
