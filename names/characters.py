#!/usr/bin/env python3
"""Makes the tables of the characters that keysyms give, and of letters in upper and lower case: names/characters.py

The installed libxkbcommon.so.0 is asked: by xkb_keysym_to_utf32 for the keysyms from 0x100 to 0xffff, those of the older
sets (Latin-2 to Latin-9, Katakana, Arabic, Cyrillic, Greek, Thai, Hebrew, Korean, technical signs and others) and those of
functions and of the keypad that give a character, and by xkb_keysym_to_upper and xkb_keysym_to_lower for those below
0x10000 and those of Unicode. Latin-1 and the keysyms of Unicode follow a rule, and stand in no table of characters.

It writes, in crates/kx_text, specs/OlderCharacters.antt, specs/CaseRuns.antt, src/character_table.rt and
src/case_table.rt; `rt check` proves that they are the same.

Last run: libxkbcommon0 1.5.0-1 of Debian 12.
"""
import ctypes
from pathlib import Path

CRATE = Path(__file__).resolve().parent.parent / "crates" / "kx_text"
WIDTH = 118


def call_of(name):
    call = getattr(ctypes.CDLL("libxkbcommon.so.0"), name)
    call.argtypes, call.restype = [ctypes.c_uint32], ctypes.c_uint32
    return call


def lines(items, indent, between, width=WIDTH):
    """Items with a text behind each, in lines."""
    filled, line = [], indent
    for item in items:
        if len(line) + len(item) + len(between) > width and line != indent:
            filled.append(line.rstrip())
            line = indent
        line += item + between
    return "\n".join([*filled, line.rstrip()])


def array(comment, name, numbers):
    numbers = list(numbers)
    return """
/// %s
#[rattlefmt::skip]
pub(crate) static %s: [u32; %d] = [
%s
];
""" % (comment, name, len(numbers), lines(map(hex, numbers), "    ", ", "))


def table(comment, name, rows):
    shown = ("(%s)" % ", ".join(map(hex, row)) for row in rows)
    return """
/// %s
#[rattlefmt::skip]
pub(crate) static %s: [Run; %d] = [
%s
];
""" % (comment, name, len(rows), lines(shown, "    ", ", "))


def defined(comment, name, shape, rows):
    shown = ("(%s) ∷" % ", ".join(map(hex, row)) for row in rows)
    return """
-- %s
unfoldable pub %s : List (%s)
%s =
%s []
""" % (comment, name, shape, name, lines(shown, "    ", " "))


def write_characters():
    character = call_of("xkb_keysym_to_utf32")
    pairs = [(keysym, character(keysym)) for keysym in range(0x100, 0x10000) if character(keysym)]
    first = {}
    for keysym, number in pairs:
        first.setdefault(number, keysym)
    (CRATE / "specs" / "OlderCharacters.antt").write_text("""\
-- The characters that keysyms of the older sets, of functions and of the keypad give: made by names/characters.py, as
-- libxkbcommon 1.5 has them.
use Rattle.std.specs.Prelude.{ℕ, List, [], ◌∷◌}
""" + defined("keysyms, which rise, and the character of each", "older_characters", "ℕ × ℕ", pairs))
    (CRATE / "src" / "character_table.rt").write_text("""\
//! The characters that keysyms of the older sets, of functions and of the keypad give: made by names/characters.py.
""" + array("The keysyms, which rise.", "KEYSYMS", (keysym for keysym, _ in pairs))
        + array("The character of each.", "CHARACTERS", (number for _, number in pairs))
        + array("The characters, each once, which rise.", "EACH_CHARACTER", sorted(first))
        + array("The first keysym of each.", "FIRST_KEYSYMS", (first[number] for number in sorted(first))))
    print("%d keysyms of %d characters" % (len(pairs), len(first)))


def runs_of(change, keysyms):
    """(first, last, what the first becomes), of keysyms in a row that become others in a row."""
    runs = []
    for keysym in keysyms:
        image = change(keysym)
        if image == keysym:
            continue
        if runs and runs[-1][1] + 1 == keysym and runs[-1][2] + keysym - runs[-1][0] == image:
            runs[-1][1] = keysym
        else:
            runs.append([keysym, keysym, image])
    return runs


def write_case():
    upper, lower = call_of("xkb_keysym_to_upper"), call_of("xkb_keysym_to_lower")
    keysyms = [*range(0x10000), *range(0x1000000, 0x1110000)]

    def alternates(keysym):
        return (upper(keysym), lower(keysym), upper(keysym + 1), lower(keysym + 1)) == (keysym, keysym + 1) * 2

    sections = []
    for keysym in keysyms:
        if alternates(keysym):
            if sections and sections[-1][1] + 1 == keysym:
                sections[-1][1] = keysym + 1
            else:
                sections.append([keysym, keysym + 1, 0])
    among = {keysym for first, last, _ in sections for keysym in range(first, last + 1)}
    others = [keysym for keysym in keysyms if keysym not in among]
    tables = [
        ("Letters in turn, upper case and lower case: the first, the last, and 0.", "alternating", sections),
        ("Other letters in lower case: the first, the last, and the first in upper case.", "to_upper", runs_of(upper, others)),
        ("Other letters in upper case: the first, the last, and the first in lower case.", "to_lower", runs_of(lower, others)),
    ]
    (CRATE / "specs" / "CaseRuns.antt").write_text("""\
-- Keysyms of letters in upper and lower case: made by names/characters.py, as libxkbcommon 1.5 has them.
use Rattle.std.specs.Prelude.{ℕ, List, [], ◌∷◌}
""" + "".join(defined(comment[0].lower() + comment[1:-1], name, "ℕ × ℕ × ℕ", rows) for comment, name, rows in tables))
    (CRATE / "src" / "case_table.rt").write_text("""\
//! Keysyms of letters in upper and lower case: made by names/characters.py.
use crate::case::Run;
""" + "".join(table(comment, name.upper(), rows) for comment, name, rows in tables))
    print(", ".join("%d rows of %s" % (len(rows), name) for _, name, rows in tables))


write_characters()
write_case()
