"""make.py check      the reader against results written by hand
make.py numbers    what the program `program_vectors` has to print
make.py source     its table, crates/program_vectors/src/vectors.rt, for rt fmt
make.py script     packets, originals and walks as a script, rust/scripts/lists/readings.txt
make.py readings   what has to come of it, rust/scripts/lists/readings.expected
"""
import sys

import reader
from numbers_expected import TABLES, number_lines
from parts import Packet, Walk, stand
from vectors import GROUPS

ORDER = ["refusals", "verdicts", "lengths", "lists", "fragments", "large", "rereads", "walks"]
TITLES = {
    "refusals": "Packets that are refused, and document 01's figures.",
    "verdicts": "Packets whose verdict the start of the area decides: pad and option checksum.",
    "lengths": "Packets with options of every kind and length.",
    "lists": "Packets whose lists have EOL, many options or APC.",
    "fragments": "Packets with FRAG.",
    "large": "Packets too long to spell out: the bytes given, then one byte over and over.",
    "rereads": "Reassembled originals.",
    "walks": "Options one by one, in ranges that no reader gave.",
}
FIGURES = {
    "figure-1": "f8c506060000012c", "figure-2": "00f8c406060000012c", "figure-3": "fffd", "figure-4": "ffff06060000f9f1",
    "figure-6": "01fffd",
}
# Fields that have to come out as the vector's name says.
FIELDS = {"checksum-ffff": (6, 0xFFFF), "ocs-ffff-odd": (10, 0xFFFF), "figure-4": (8, 0xFFFF)}
# Where the options of a list stand: kinds and offsets.
OPTIONS = {
    "figure-1": "6 at 10", "figure-2": "6 at 12", "figure-3": "nothing", "figure-7": "nothing",
    "every-fixed-kind": "2 at 12, 4 at 18, 5 at 22, 6 at 27, 7 at 33, 8 at 39",
    "varying-kinds": "9 at 12, 10 at 14, 126 at 17, 127 at 21, 128 at 23, 191 at 26",
    "repeated-kind": "6 at 12, 6 at 18, 6 at 24", "nops-between": "6 at 13, 7 at 21", "eol-last": "6 at 12, 7 at 18",
    "empty-bodies": "9 at 10, 191 at 13, 127 at 15", "empty-bodies-odd": "9 at 14, 191 at 17, 127 at 19",
    "behind-an-extended-option": "9 at 12, 10 at 267, 6 at 269", "behind-an-extended-option-odd": "6 at 13, 9 at 19, 4 at 319, 5 at 324",
    "extended-255-nops": "6 at 12, 9 at 18", "apc-digits": "6 at 20, 2 at 26", "piece": "nothing", "tail-with-apc": "nothing",
    "reread-r-0": "6 at 10", "reread-right-even": "6 at 12", "reread-right-odd": "6 at 12", "reread-apc-right": "2 at 20",
    "reread-nops-7-option-7": "6 at 19", "reread-behind-an-extended-option": "9 at 20, 10 at 275, 6 at 278",
}


def every():
    return [v for module in ORDER for _, _, vectors in GROUPS[module] for v in vectors]


def check():
    names, wrong = set(), 0
    for v in every():
        assert v.name not in names, v.name
        names.add(v.name)
        for way in v.ways:
            got = v.brief(way)
            if got != v.want[way]:
                wrong += 1
                print("DIFFERS", v.name, way, "table:", v.want[way], "reader:", got)
        if not isinstance(v, Walk):
            assert v.want["strict"] == v.want["plain"] or v.want["strict"].startswith("padded at "), v.name
        if v.name in FIGURES:
            size = v.payload()[5]
            assert v.payload()[size:].hex() == FIGURES[v.name], v.name
        if v.name in FIELDS:
            at, value = FIELDS[v.name]
            assert int.from_bytes(v.payload()[at:at + 2], "big") == value, v.name
        if v.name in OPTIONS:
            got = stand([option[:2] for option in v.answer("plain")[2]["options"]])
            assert got == OPTIONS[v.name], (v.name, got)
    assert not (set(FIGURES) | set(FIELDS) | set(OPTIONS)) - names
    print(len(names), "packets, originals and walks,", wrong, "differ")
    return wrong == 0


# ---- the script of packets and originals

def remark(v):
    """The labels of the parts, in their order, and the vector's note."""
    text = " | ".join(p.label for p in v.parts if p.label)
    return ". ".join(t for t in (text, v.note.rstrip(".")) if t)


def dotted(address):
    return ".".join(map(str, address))


def script_line(v):
    parts = "".join(" " + p.data.hex() for p in v.parts if p.data)
    fill = " then %02x up to %d" % v.fill if v.fill else ""
    if isinstance(v, Walk):
        return f"walk {v.name} verdict {v.verdict} rest {v.rest[0]} {v.rest[1]} bytes{parts}{fill}"
    if not isinstance(v, Packet):
        return f"original {v.name} r {v.r} bytes{parts}{fill}"
    between = f" from {dotted(v.addresses[0])} to {dotted(v.addresses[1])}" if v.addresses else ""
    return f"packet {v.name}{between} bytes{parts}{fill}"


def script():
    out = ["-- Made by tools/vectors/make.py: each packet's parts, and a remark that names them in order. Each is read plainly, then strictly",
           "-- The bytes of a walk are taken for a packet's, then for an original's"]
    for module in ORDER:
        out += ["--", f"-- ==== {TITLES[module]}"]
        for _, title, vectors in GROUPS[module]:
            out += ["--", f"-- {title}"]
            for v in vectors:
                out += ["--   " + remark(v)] if remark(v) else []
                out.append(script_line(v))
    return out


# ---- the tables of numbers

def escaped(data):
    return "".join("\\x%02x" % b for b in data)


def record(name, data):
    """A record's rows: name, blank, length byte, bytes; broken where it is long."""
    assert len(data) < 256, name
    rows, row = [], name + " " + escaped(bytes([len(data)]))
    while data:
        room = (150 - len(row)) // 4
        if len(data) > room and (room < 16 or len(data) <= 34) and row:
            rows.append(row)
            row = ""
            continue
        row += escaped(data[:room])
        data = data[room:]
    return rows + [row]


def source():
    """A record's first letter says to the program what its bytes are."""
    out = ["// The vectors of numbers, made by tools/vectors/make.py. A record: name, blank, length byte, bytes.\nuse crate::table;\nuse std::io;\n\npub fn run(rt: &impl Print) -> io::Result<()> {\n"]
    for text, records in TABLES:
        rows = [row for r in records for row in record(r.name, r.data)]
        out.append(f"    // {text}\n" + "".join(f"    //   {r.name}: {r.remark}\n" for r in records))
        out.append("    table::run(rt, b\"" + "\\\n    ".join(rows) + "\")" + ("" if records is TABLES[-1][1] else "?;") + "\n")
    return "".join(out) + "}\n"


if sys.argv[1] == "check":
    sys.exit(0 if check() else 1)
if sys.argv[1] == "source":
    sys.stdout.write(source())
if sys.argv[1] == "numbers":
    print("\n".join(number_lines()))
if sys.argv[1] == "script":
    print("\n".join(script()))
if sys.argv[1] == "readings":
    print("\n".join(v.line(way) for v in every() for way in v.ways))
