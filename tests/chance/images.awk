# Reads images slowly, by the rules of an image one by one, and judges what was said of changed ones: a fault of its form has to
# be the one that it is refused for, a bad record one that breaks a rule, and an image that is taken breaks none.
#   awk -f images.awk IMAGE FOUND
# IMAGE has the bytes of an image in hexadecimal, FOUND lines as `PLACE:BYTE ANSWER`: the image with that byte at that place, and
# `taken` or the fault. Each answer that is otherwise is a line, and the last line counts the answers.

function digit(letter) { return index("0123456789abcdef", letter) - 1 }

function byte_of(pair) { return digit(substr(pair, 1, 1)) * 16 + digit(substr(pair, 2, 1)) }

# Whether a set of bits has some that another lacks.
function has_others(set, other,    bit) {
    for (bit = 128; bit >= 1; bit /= 2) {
        if (set >= bit && other < bit) return 1
        if (set >= bit) set -= bit
        if (other >= bit) other -= bit
    }
    return 0
}

# The number in so many bytes at a place, the lowest first; bytes past the end are 0.
function number(place, width,    value) {
    value = 0
    while (width-- > 0) value = value * 256 + (place + width < size ? bytes[place + width] : 0)
    return value
}

# A field of a record: its place in the record, and how many bytes it has.
function field(table, row, place, width) { return number(starts[table] + row * sizes[table] + place, width) }

# The sum of a field over so many first rows of a table.
function sum(table, count, place, width,    row, total) {
    total = 0
    for (row = 0; row < count; row++) total += field(table, row, place, width)
    return total
}

# Where the tables begin, how many rows they have, and where they end. Groups are counted by their keys.
function measure(    newer, place, table, key) {
    newer = number(4, 2) == 2
    rows["type"] = number(8, 2)
    rows["entry"] = number(12, 4)
    rows["key"] = number(10, 2)
    rows["group"] = 0
    rows["cell"] = number(16, 4)
    rows["keysym"] = number(20, 4)
    rows["indicator"] = newer ? number(28, 2) : 0
    rows["groupname"] = newer ? number(30, 2) : 0
    rows["name"] = number(24, 4)
    place = newer ? 32 : 28
    for (table = 1; table <= 9; table++) {
        starts[names[table]] = place
        if (names[table] == "group")
            for (key = 0; key < rows["key"] && starts["key"] + key * 16 < size; key++) rows["group"] += field("key", key, 5, 1)
        place += rows[names[table]] * sizes[names[table]]
    }
    end = place
}

# How many cells the first groups have.
function cells_before(groups,    group, type, total) {
    total = 0
    for (group = 0; group < groups; group++) {
        type = field("group", group, 0, 2)
        if (type < rows["type"]) total += field("type", type, 1, 1)
    }
    return total
}

# How many types the first groups use.
function types_before(groups,    group, type, used) {
    used = 0
    for (group = 0; group < groups; group++) {
        type = field("group", group, 0, 2)
        if (type >= used) used = type + 1
    }
    return used
}

# Where the names of a table begin; the names stand as types, keys, indicators, groups.
function first_name(table,    place) {
    place = 0
    if (table == "type") return place
    place += sum("type", rows["type"], 4, 2)
    if (table == "key") return place
    place += sum("key", rows["key"], 6, 2)
    if (table == "indicator") return place
    return place + sum("indicator", rows["indicator"], 8, 2)
}

function has_same_name(table, one, other,    count, place, a, b) {
    count = field(table, one, lengths[table], 2)
    if (count != field(table, other, lengths[table], 2)) return 0
    a = field(table, one, firsts[table], 4)
    b = field(table, other, firsts[table], 4)
    for (place = 0; place < count; place++)
        if (field("name", a + place, 0, 1) != field("name", b + place, 0, 1)) return 0
    return 1
}

# Whether a row's name is too long, or not at its place, or one of a row before, where names differ.
function name_breaks(table, row, differ,    earlier) {
    if (field(table, row, lengths[table], 2) > 255 || field(table, row, firsts[table], 4) != first_name(table) + sum(table, row, lengths[table], 2)) return 1
    for (earlier = 0; differ && earlier < row; earlier++) if (has_same_name(table, earlier, row)) return 1
    return 0
}

function header_breaks(    key, groups, greatest) {
    greatest = 0
    for (key = 0; key < rows["key"]; key++) {
        groups = field("key", key, 5, 1)
        if (groups > greatest) greatest = groups
    }
    return number(6, 2) != greatest || rows["entry"] != sum("type", rows["type"], 2, 2) ||
        rows["cell"] != cells_before(rows["group"]) || rows["keysym"] != sum("cell", rows["cell"], 0, 1) ||
        rows["name"] != first_name("groupname") + sum("groupname", rows["groupname"], 0, 2)
}

function type_breaks(row,    levels) {
    levels = field("type", row, 1, 1)
    return levels == 0 || levels > 64 || field("type", row, 6, 2) != 0 ||
        field("type", row, 8, 4) != sum("type", row, 2, 2) || row >= types_before(rows["group"]) || name_breaks("type", row, 1)
}

function entry_breaks(row,    before, type, mask, level, earlier) {
    if (field("entry", row, 3, 1) != 0) return 1
    before = 0
    for (type = 0; type < rows["type"]; type++) {
        if (row < before + field("type", type, 2, 2)) break
        before += field("type", type, 2, 2)
    }
    if (type == rows["type"]) return 0
    mask = field("entry", row, 0, 1)
    level = field("entry", row, 1, 1)
    for (earlier = before; earlier < row; earlier++) if (field("entry", earlier, 0, 1) == mask) return 1
    return has_others(mask, field("type", type, 0, 1)) || has_others(field("entry", row, 2, 1), mask) ||
        level == 0 || level > field("type", type, 1, 1)
}

function key_breaks(row,    code, range, redirect, earlier) {
    code = field("key", row, 0, 2)
    range = field("key", row, 3, 1)
    redirect = field("key", row, 4, 1)
    for (earlier = 0; earlier < row; earlier++) if (field("key", earlier, 0, 2) >= code) return 1
    return code > 4095 || range > 2 || redirect > 31 || (redirect != 0 && range != 2) || field("key", row, 5, 1) > 32 ||
        field("key", row, 12, 4) != sum("key", row, 5, 1) || name_breaks("key", row, 1)
}

function group_breaks(row,    type) {
    type = field("group", row, 0, 2)
    return type >= rows["type"] || type > types_before(row) || field("group", row, 2, 2) != 0 ||
        field("group", row, 4, 4) != cells_before(row)
}

# What each action may have: modifiers by the first three, flags by `flags`, a group by the others, which 16 says to be absolute.
function cell_breaks(row,    action, set, mods, group) {
    action = field("cell", row, 1, 1)
    set = field("cell", row, 2, 1)
    mods = field("cell", row, 3, 1)
    group = field("cell", row, 4, 1)
    if (action > 6 || has_others(set, flags[action]) || (mods != 0 && (action == 0 || action > 3))) return 1
    if (action < 4 ? group != 0 : has_others(16, set) ? group > 32 && group < 224 : group > 31) return 1
    return field("cell", row, 0, 1) > 8 || field("cell", row, 5, 3) != 0 || field("cell", row, 8, 4) != sum("cell", row, 0, 1)
}

function keysym_breaks(row,    keysym) {
    keysym = field("keysym", row, 0, 4)
    return keysym < 10 || keysym > 536870911
}

function indicator_breaks(row) {
    return row > 31 || field("indicator", row, 1, 1) > 15 || field("indicator", row, 2, 1) > 15 ||
        field("indicator", row, 3, 1) != 0 || field("indicator", row, 10, 2) != 0 || name_breaks("indicator", row, 1)
}

function group_name_breaks(row) {
    return row > 31 || (row + 1 == rows["groupname"] && field("groupname", row, 0, 2) == 0) ||
        field("groupname", row, 2, 2) != 0 || name_breaks("groupname", row, 0)
}

# Whether a byte of a key's name is none that such a name may have.
function letter_breaks(row,    byte) {
    byte = field("name", row, 0, 1)
    return first_name("key") <= row && row < first_name("indicator") && (byte < 33 || byte > 126 || byte == 62)
}

function breaks(kind, row) {
    if (kind == "header") return header_breaks()
    if (kind == "type") return type_breaks(row)
    if (kind == "entry") return entry_breaks(row)
    if (kind == "key") return key_breaks(row)
    if (kind == "group") return group_breaks(row)
    if (kind == "cell") return cell_breaks(row)
    if (kind == "keysym") return keysym_breaks(row)
    if (kind == "indicator") return indicator_breaks(row)
    if (kind == "groupname") return group_name_breaks(row)
    return letter_breaks(row)
}

function any_breaks(    table, row) {
    for (table = 1; table <= 9; table++)
        for (row = 0; row < rows[names[table]]; row++) if (breaks(names[table], row)) return 1
    return header_breaks()
}

# The fault of the form, or nothing; the version tells where the tables begin.
function fault_of_form(    version) {
    version = number(4, 2)
    if (size < 28) return "I1 Truncated"
    if (number(0, 4) != 172578891) return "I2 Magic"
    if (version != 1 && version != 2) return "I3 Version"
    if (version == 2 && size < 32) return "I1 Truncated"
    measure()
    if (size < end) return "I1 Truncated"
    return size > end ? "I4 Length" : ""
}

function is_right(answer,    fault, words) {
    fault = fault_of_form()
    if (fault != "") return answer == fault
    if (answer == "taken") return !any_breaks()
    return split(answer, words, " ") == 4 && words[1] " " words[2] == "I5 BadRecord" && (words[3] in kinds) &&
        breaks(words[3], words[4] + 0)
}

BEGIN {
    split("type entry key group cell keysym indicator groupname name", names, " ")
    split("16 4 16 8 12 4 16 8 1", widths, " ")
    for (table = 1; table <= 9; table++) {
        sizes[names[table]] = widths[table]
        kinds[names[table]]
    }
    kinds["header"]
    split("0 1 3 12 17 19 16", allowed, " ")
    for (action = 0; action <= 6; action++) flags[action] = allowed[action + 1]
    lengths["type"] = 4; firsts["type"] = 12
    lengths["key"] = 6; firsts["key"] = 8
    lengths["indicator"] = 8; firsts["indicator"] = 12
    lengths["groupname"] = 0; firsts["groupname"] = 4
}

NR == FNR {
    for (column = 1; column <= NF; column++) bytes[size++] = byte_of($column)
    next
}

{
    split($1, change, ":")
    answer = substr($0, length($1) + 2)
    old = bytes[change[1]]
    bytes[change[1]] = byte_of(change[2])
    if (is_right(answer)) passed++
    else {
        failed++
        print "FAILED: byte " change[1] " as " change[2] ": " answer
    }
    bytes[change[1]] = old
}

END { printf "%d passed, %d failed\n", passed, failed }
