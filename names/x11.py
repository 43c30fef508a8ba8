#!/usr/bin/env python3
"""Makes the tables of X11's keysyms: names/x11.py HEADER XF86_HEADER

HEADER is xkbcommon-keysyms.h of libxkbcommon, which has the names of the headers of x11proto (keysymdef.h, XF86keysym.h,
and those of DEC, HP and Sun) with XKB_KEY_ before them. XF86_HEADER is x11proto's XF86keysym.h, for names that it has and
HEADER hasn't yet. Letters are asked of the installed libxkbcommon.so.0, whose
xkb_keysym_to_upper and xkb_keysym_to_lower are Unicode's simple case mapping, taken over to all keysyms.

It writes, in crates/ks_core, specs/X11.antt and src/x11_table.rt (names), and specs/MoreLetters.antt and src/letter_table.rt
(letters). Run it again for a newer header; `rt check` proves the tables anew. A name that is built in isn't repeated, nor
is one that no keymap's text can have, since it begins with a digit (3270_Test).

Last run: libxkbcommon-dev 1.5.0-1 and x11proto-dev 2022.1-1 of Debian 12.
"""
import ctypes
import itertools
import re
import sys
from pathlib import Path

CRATE = Path(__file__).resolve().parent.parent / "crates" / "ks_core"
SLOTS = 4096
SHIFTS = 1024
HASHES = 4194304
WIDTH = 118


def built_in():
    """The built-in names, as specs/BuiltIn.antt has them."""
    text = (CRATE / "specs" / "BuiltIn.antt").read_text()
    body = text.split("built_in_runs = ")[1].split("\n\n")[0]
    return {name for _, names in re.findall(r'\((0x[0-9a-f]+), "([^"]*)"\)', body) for name in names.split(" ")}


def defined(path, pattern):
    """(name, number) as a header defines them."""
    found = (re.match(r"#define " + pattern, line) for line in open(path))
    return [(match[1], int(match[2], 16)) for match in found if match]


def header_names(header, xf86_header):
    """(name, keysym) as the headers have them, by keysym and then in their order, without those that are built in."""
    rows = defined(header, r"XKB_KEY_([A-Za-z_]\w*)\s+(0x[0-9a-fA-F]+)")
    rows += [("XF86" + name, 0x10081000 + code) for name, code in defined(xf86_header, r"XF86XK_(\w+)\s+_EVDEVK\((0x[0-9a-fA-F]+)\)")]
    known, kept = built_in(), []
    for name, keysym in rows:
        if name not in known:
            known.add(name)
            kept.append((name, keysym))
    return sorted(kept, key=lambda row: row[1])


def split_names(rows):
    """The first name of each keysym, and the others."""
    firsts, others, seen = [], [], set()
    for row in rows:
        (others if row[1] in seen else firsts).append(row)
        seen.add(row[1])
    return firsts, others


def underscored(rows):
    """XF86_ and the rest for each name that begins with XF86."""
    return [("XF86_" + name[4:], keysym) for name, keysym in rows if name.startswith("XF86")]


def hash_of(name):
    value = 0
    for byte in name.encode():
        value = (value * 33 + byte) % HASHES
    return value


def placed(names):
    """Shifts and slots: name i has the slot (hash + shift of its part) % SLOTS, and no two have the same."""
    parts = {}
    for place, name in enumerate(names):
        value = hash_of(name)
        parts.setdefault(value // SLOTS % SHIFTS, []).append((value % SLOTS, place))
    slots, shifts = [None] * SLOTS, [0] * SHIFTS
    for part, members in sorted(parts.items(), key=lambda item: (-len(item[1]), item[0])):
        for shift in range(SLOTS):
            taken = [(slot + shift) % SLOTS for slot, _ in members]
            if len(set(taken)) == len(taken) and all(slots[slot] is None for slot in taken):
                break
        else:
            sys.exit("no shift for part %d: change SHIFTS or SLOTS" % part)
        shifts[part] = shift
        for slot, (_, place) in zip(taken, members):
            slots[slot] = place
    return shifts, [place or 0 for place in slots]


def filled(items, indent, width=WIDTH):
    """Items with a comma behind each, in lines."""
    lines, line = [], indent
    for item in items:
        if len(line) + len(item) + 1 > width:
            lines.append(line.rstrip())
            line = indent
        line += item + ", "
    lines.append(line.rstrip())
    return "\n".join(lines)


def consed(items, width=WIDTH):
    """A list of the definitions, in lines."""
    lines, line = [], "   "
    for item in items:
        piece = " " + item + " ∷"
        if len(line) + len(piece) > width and line.strip():
            lines.append(line)
            line = "   "
        line += piece
    lines.append(line + " []")
    return "\n".join(lines)


def named_runs(firsts):
    """(first keysym, names of it and of those after it), of at most about a line."""
    runs = []
    for name, keysym in firsts:
        last = runs[-1] if runs else None
        if last and last[0] + len(last[1]) == keysym and sum(len(n) + 1 for n in last[1]) + len(name) < 96:
            last[1].append(name)
        else:
            runs.append((keysym, [name]))
    return runs


def grouped(others):
    """(keysym, its further names)."""
    return [(keysym, [name for name, _ in rows]) for keysym, rows in itertools.groupby(others, key=lambda row: row[1])]


def quoted(pairs):
    return ['(0x%x, "%s")' % (keysym, " ".join(names)) for keysym, names in pairs]


def write_names(header, xf86_header):
    firsts, others = split_names(header_names(header, xf86_header))
    rows = firsts + others + underscored(firsts + others)
    names = [name for name, _ in rows]
    assert len(set(names)) == len(names)
    (CRATE / "specs" / "X11.antt").write_text("""\
-- The keysyms of X11 and XFree86 by name, beyond the built-in ones: made by names/x11.py from the headers of libxkbcommon 1.5 and of
-- x11proto 2022.1.
use Rattle.std.specs.Prelude.{ℕ, ◌==◌, List, [], ◌∷◌, ◌++◌, codes, drop, map, take, if◌then◌else◌}
use Rattle.std.specs.List.{slice_split, flat_map}
use Rattle.std.specs.Str.{bytes_eq}
use Rattle.ks_core.specs.BuiltIn.{entries_of_run}
use Rattle.ks_core.specs.Entry.{Entry}
use Prim.Native.String.{String}

-- runs: the first keysym, and the first names of it and of those after it, apart by a space
unfoldable pub x11_runs : List (ℕ × String)
x11_runs =
%s

-- keysyms, and the further names of each, apart by a space
unfoldable pub x11_others : List (ℕ × String)
x11_others =
%s

-- the first names of the keysyms
unfoldable pub x11_firsts : List Entry
unfolding x11_runs entries_of_run
x11_firsts = flat_map entries_of_run x11_runs

abbrev pub named_alike : ℕ × String → List Entry
named_alike names = map (λ name. (name, names.0)) (slice_split (λ c. c == 32) (codes names.1))

unfoldable pub x11_seconds : List Entry
unfolding x11_others
x11_seconds = flat_map named_alike x11_others

-- `XF86_` and the rest for each name of `XF86` and a rest
unfoldable pub underscored : List Entry → List Entry
underscored [] = []
underscored (e ∷ es) = if bytes_eq (take 4 e.0) (codes "XF86") then (codes "XF86_" ++ drop 4 e.0, e.1) ∷ underscored es else underscored es

-- the names with their keysyms
unfoldable pub x11_names : List Entry
unfolding x11_firsts x11_seconds
x11_names = x11_firsts ++ (x11_seconds ++ underscored (x11_firsts ++ x11_seconds))
""" % (consed(quoted(named_runs(firsts))), consed(quoted(grouped(others)))))
    shifts, slots = placed(names)
    starts = [0, *itertools.accumulate(len(name) for name in names)]
    (CRATE / "src" / "x11_table.rt").write_text("""\
//! The keysyms of X11 and XFree86 and their names, beyond the built-in ones: made by names/x11.py.

/// How many keysyms there are: so many names are the first of theirs.
pub(crate) const FIRSTS: usize = %d;

/// The names one after another: the first of each keysym by keysym, then further ones.
#[rattlefmt::skip]
pub(crate) static TEXT: &str = "%s";

/// Where they start, and where the last one ends.
#[rattlefmt::skip]
pub(crate) static STARTS: [u16; %d] = [
%s
];

/// Their keysyms.
#[rattlefmt::skip]
pub(crate) static KEYSYMS: [u32; %d] = [
%s
];

/// By a part of a hash, how far its names are shifted.
#[rattlefmt::skip]
pub(crate) static SHIFTS: [[u16; 32]; %d] = [
%s
];

/// By the shifted hash, the place of the name.
#[rattlefmt::skip]
pub(crate) static SLOTS: [[u16; 64]; %d] = [
%s
];
""" % (len(firsts), "".join(names), len(starts), filled(map(str, starts), "    "),
       len(rows), filled(("0x%x" % keysym for _, keysym in rows), "    "),
       SHIFTS // 32, nested(shifts, 32), SLOTS // 64, nested(slots, 64)))
    print("%d keysyms, %d names" % (len(firsts), len(rows)))


def nested(numbers, size):
    return "\n".join("    [%s]," % ", ".join(map(str, numbers[at:at + size])) for at in range(0, len(numbers), size))


def cased():
    """The keysyms that are letters in lower case, and those in upper case, each with its other case."""
    library = ctypes.CDLL("libxkbcommon.so.0")
    for call in (library.xkb_keysym_to_upper, library.xkb_keysym_to_lower):
        call.argtypes, call.restype = [ctypes.c_uint32], ctypes.c_uint32
    lower, upper = [], []
    for keysym in itertools.chain(range(0x20000), range(0x1000000, 0x1110000)):
        big, small = library.xkb_keysym_to_upper(keysym), library.xkb_keysym_to_lower(keysym)
        if big != small and keysym == small:
            lower.append(keysym)
        if big != small and keysym == big:
            upper.append(keysym)
    return lower, upper


def rule_letters():
    """The pairs that every table has, as specs/Keysym.antt has them."""
    text = (CRATE / "specs" / "Keysym.antt").read_text()
    lower, upper = set(), set()
    for small, big, count in re.findall(r"letters (0x[0-9a-f]+) (0x[0-9a-f]+) (\d+) ∷", text):
        lower |= set(range(int(small, 16), int(small, 16) + int(count)))
        upper |= set(range(int(big, 16), int(big, 16) + int(count)))
    return lower, upper


def stepped_runs(keysyms):
    """(first, count, step): as many as go on by one, or by two, from the first on."""
    runs, at = [], 0
    while at < len(keysyms):
        best = (1, 1)
        for step in (1, 2):
            count = 1
            while at + count < len(keysyms) and keysyms[at + count] == keysyms[at] + count * step:
                count += 1
            best = max(best, (count, -step if step > 1 else step), key=lambda run: run[0])
        count, step = best[0], abs(best[1])
        runs.append((keysyms[at], count, step))
        at += count
    return runs


def write_letters():
    lower, upper = cased()
    rule_lower, rule_upper = rule_letters()
    lower = [keysym for keysym in lower if keysym not in rule_lower]
    upper = [keysym for keysym in upper if keysym not in rule_upper]
    spelled = lambda keysyms: consed("run 0x%x %d %d" % run for run in stepped_runs(keysyms))
    (CRATE / "specs" / "MoreLetters.antt").write_text("""\
-- The letters of Unicode's simple case mapping, beyond those that every table has: made by names/x11.py, as libxkbcommon 1.5
-- takes the mapping over to all keysyms.
use Rattle.std.specs.Prelude.{ℕ, zero, suc, ◌+◌, List, [], ◌∷◌}
use Rattle.std.specs.List.{flat_map}

-- so many keysyms from the first on, each so far behind the one before it
unfoldable pub steps_from : ℕ → ℕ → ℕ → List ℕ
steps_from zero step first = []
steps_from (suc count) step first = first ∷ steps_from count step (first + step)

abbrev pub run : ℕ → ℕ → ℕ → List ℕ
run first count step = steps_from count step first

-- in lower case: they have another keysym in upper case, and are their own lower case
unfoldable pub lower_runs : List (List ℕ)
lower_runs =
%s

-- in upper case: they have another keysym in lower case, and are their own upper case
unfoldable pub upper_runs : List (List ℕ)
upper_runs =
%s

abbrev pub all_of : List (List ℕ) → List ℕ
all_of runs = flat_map (λ r. r) runs

unfoldable pub more_lower : List ℕ
unfolding lower_runs steps_from
more_lower = all_of lower_runs

unfoldable pub more_upper : List ℕ
unfolding upper_runs steps_from
more_upper = all_of upper_runs
""" % (spelled(lower), spelled(upper)))
    (CRATE / "src" / "letter_table.rt").write_text("""\
//! The letters of Unicode's simple case mapping, beyond those that every table has: made by names/x11.py.

/// In lower case.
#[rattlefmt::skip]
pub(crate) static LOWER: [u32; %d] = [
%s
];

/// In upper case.
#[rattlefmt::skip]
pub(crate) static UPPER: [u32; %d] = [
%s
];
""" % (len(lower), filled(map(hex, lower), "    "), len(upper), filled(map(hex, upper), "    ")))
    print("%d letters in lower case, %d in upper case" % (len(lower), len(upper)))


write_names(sys.argv[1], sys.argv[2])
write_letters()
