"""What a crate has of the texts: what `l4sh explain` says of each code, and what helps."""

HEAD = """//! What each code means, and what helps. `protocol/generate.py` writes this file, from
//! `protocol/codes.txt`.
use crate::codes::Family;

/// The families of codes, in the order in which they are told.
pub(crate) const FAMILIES: [Family; {count}] = [
"""
FAMILY = """    Family {{
        letters: {letters},
        about: {about},
        meanings: &[
{meanings}        ],
        helps: &[
{helps}        ],
    }},
"""


def families(protocol):
    """The families with what each code of them means, and what helps."""
    return HEAD.format(count=len(protocol.codes)) + "".join(family(protocol, letters) for letters in protocol.codes) + "];\n"


def family(protocol, letters):
    meanings, helps = (texts_of(map(text, protocol.codes[letters])) for text in (lambda it: it.means, lambda it: it.helps))
    return FAMILY.format(letters=quoted(letters), about=quoted(protocol.about[letters]), meanings=meanings, helps=helps)


def texts_of(texts):
    return "".join(f"            {quoted(it)},\n" for it in texts)


def quoted(text):
    """A text as Rattle spells it. No text of a code has a quote or a backslash."""
    if set(text) & set('"\\'):
        raise ValueError(f"a text of a code with a quote or a backslash: {text}")
    return f'"{text}"'
