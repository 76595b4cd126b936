#!/usr/bin/env python3
"""Writes samples/NAME.bin (8 address bytes and a payload) and samples/NAME.txt (what document 01 says is printed of it, with R-2 and R-7
of document 02; by R-6 the program is not strict, so that any number of NOPs is skipped).

The expected text comes from a reading of the papers in this script alone: refusals 1 to 4 in order, the verdicts in order, the walk.
Each sample also names what it is meant to give, so that a slip in a sample's bytes is seen here: a refusal, or the verdict, with a fault's
offset counted by hand, and where it says so the kinds and offsets of the options."""
import os, struct, sys

HERE = os.path.dirname(os.path.abspath(__file__))
OUT = os.path.join(HERE, "..", "..", "samples")
SRC, DST = bytes([192, 0, 2, 1]), bytes([198, 51, 100, 7])


# ---- RFC 768 and RFC 9868 section 9: 16-bit ones' complement sums

def ones_sum(data):
    if len(data) % 2:
        data += b"\0"
    s = sum(struct.unpack(f">{len(data) // 2}H", data))
    while s >> 16:
        s = (s & 0xFFFF) + (s >> 16)
    return s


def udp(area, user=b"", checksum=None, length=None, src=SRC, dst=DST):
    """A payload: UDP header with a right checksum unless one is given, user data, area."""
    size = 8 + len(user) if length is None else length
    head = struct.pack(">HHH", 4660, 53, size)
    if checksum is None:
        pseudo = src + dst + struct.pack(">BBH", 0, 17, size)
        checksum = 0xFFFF - ones_sum(pseudo + head + b"\0\0" + user)
        checksum = checksum or 0xFFFF
    return head + struct.pack(">H", checksum) + user + area


def area_of(options, size=8, ocs=None):
    """Pad, option checksum and option list, for an area that starts at packet offset `size`."""
    pad = b"\0" if size % 2 else b""
    if ocs is None:
        blank = pad + b"\0\0" + options
        shifted = (b"\0" if size % 2 else b"") + blank
        ocs = 0xFFFF - ones_sum(struct.pack(">H", len(blank)) + shifted)
        ocs = ocs or 0xFFFF
    return pad + struct.pack(">H", ocs) + options


# ---- the reading of document 01, and of in document 02

FIXED = {2: 6, 4: 4, 5: 5, 6: 6, 7: 6, 8: 10}


class Fault(Exception):
    """A fault's word and the offset where it is met, as they are printed."""

    def __init__(self, word, at):
        super().__init__(f"{word} at {at}")


def option_at(l, at, end):
    """(kind, header, size) of the option at `at`, or a fault: at its kind byte, wherever the bad byte is."""
    kind = l[at]
    if kind >= 192:
        raise Fault("unsafe", at)
    if at + 2 > end:
        raise Fault("malformed", at)
    header, size = 2, l[at + 1]
    if size == 255:
        if at + 4 > end:
            raise Fault("malformed", at)
        header, size = 4, l[at + 2] * 256 + l[at + 3]
        if size < 255:
            raise Fault("malformed", at)
    if size < 2 or at + size > end:
        raise Fault("malformed", at)
    if kind == 3 and size not in (10, 12) or kind in FIXED and size != FIXED[kind]:
        raise Fault("malformed", at)
    return kind, header, size


def walk(payload, at, size):
    """The options (kind, body, offset) and the fill of the list at `at`, or None for a fragment; faults are raised."""
    end, found, count, frag = len(payload), [], 0, False
    first = True
    while at < end:
        kind = payload[at]
        if kind == 0:
            behind = payload[at + 1:end].lstrip(b"\0")
            if behind:
                raise Fault("tail", end - len(behind))
            return (None, 0) if frag else (found, end - at)
        if kind == 1:
            at += 1
            continue
        kind, header, whole = option_at(payload, at, end)
        if kind == 3:
            if not first:
                raise Fault("malformed", at)
            start, _, offset = struct.unpack(">HIH", payload[at + 2:at + 10])
            r = struct.unpack(">H", payload[at + 10:at + 12])[0] if whole == 12 else 8
            if not at + whole <= start <= len(payload) or offset < 8 or r < 8:
                raise Fault("malformed", at)
            if size > 8:
                raise Fault("fragdata", at)
            frag, end = True, start
        count += 1
        if count == 33:
            raise Fault("crowded", at)
        first = False
        found.append((kind, payload[at + header:at + whole], at))
        at += whole
    return (None, 0) if frag else (found, 0)


def verdict_of(payload, size):
    area = payload[size:]
    if not area:
        return "none", [], 0
    pad = size % 2
    if len(area) - pad < 2:
        return "short", [], 0
    if pad and area[0]:
        return "pad", [], 0
    ocs = area[pad] * 256 + area[pad + 1]
    checksum = payload[6] * 256 + payload[7]
    if ocs == 0 and checksum:
        return "unsummed", [], 0
    if ocs and ones_sum(struct.pack(">H", len(area)) + b"\0" * pad + area) != 0xFFFF:
        return "badsum", [], 0
    try:
        found, fill = walk(payload, size + pad + 2, size)
    except Fault as fault:
        return str(fault), [], 0
    return ("piece", [], 0) if found is None else ("read", found, fill)


def fields(kind, body):
    widths = {2: [4], 4: [2], 5: [2, 1], 6: [4], 7: [4], 8: [4, 4]}.get(kind)
    if widths is None:
        return [body.hex()] if body else []
    out = []
    for width in widths:
        out.append(str(int.from_bytes(body[:width], "big")))
        body = body[width:]
    return out


def expected(data):
    if len(data) < 16:
        return "refused 1\n"
    src, dst, payload = data[:4], data[4:8], data[8:8 + 65516]
    if len(payload) > 65515:
        return "refused 2\n"
    size, checksum = struct.unpack(">HH", payload[4:8])
    if size < 8 or size > len(payload):
        return "refused 3\n"
    if checksum and ones_sum(src + dst + struct.pack(">BBH", 0, 17, size) + payload[:size]) != 0xFFFF:
        return "refused 4\n"
    word, found, fill = verdict_of(payload, size)
    lines = [f"user {size - 8}", f"verdict {word}"]
    if word == "read":
        lines += [" ".join(["kind", str(kind), *fields(kind, body), "at", str(at)]) for kind, body, at in found] + [f"fill {fill}"]
    return "\n".join(lines) + "\n"


# ---- the samples

def opt(kind, body, extended=False):
    if extended or len(body) + 2 > 254:
        return bytes([kind, 255]) + struct.pack(">H", len(body) + 4) + body
    return bytes([kind, len(body) + 2]) + body


TOKEN = opt(6, struct.pack(">I", 300))
MDS = opt(4, struct.pack(">H", 1500))
FRAG = lambda start, last=b"": opt(3, struct.pack(">HIH", start, 7, 8) + last)
NOPS = lambda count: b"\x01" * count
CRC_OF_32_ZEROS = bytes.fromhex("aa36918a")
MIXED = (
    b"\x01" + opt(2, CRC_OF_32_ZEROS) + opt(4, b"\x05\xdc") + opt(5, b"\x20\x00\x04") + b"\x01\x01" + TOKEN + opt(7, b"\xff\xff\xff\xff")
    + opt(8, bytes.fromhex("0000000a80000001")) + opt(9, b"") + opt(127, bytes.fromhex("00ff1a09e0")) + opt(191, b"\x7f", extended=False)
)
SAMPLES = {
    # refusals
    "refused1_no_input": (b"", "refused 1"),
    "refused1_addresses_cut": (SRC + DST[:3], "refused 1"),
    "refused1_payload_cut": (SRC + DST + udp(b"")[:7], "refused 1"),
    "refused2_one_too_long": (SRC + DST + udp(b"\0" * 65508, checksum=0), "refused 2"),
    "refused2_input_goes_on": (SRC + DST + udp(b"\0" * 70000, checksum=0), "refused 2"),
    "refused3_length_small": (SRC + DST + udp(b"", length=7, checksum=0), "refused 3"),
    "refused3_length_large": (SRC + DST + udp(b"", length=9, checksum=0), "refused 3"),
    "refused4_checksum": (SRC + DST + udp(b"", user=b"abc", checksum=0x1234), "refused 4"),
    "refused4_addresses": (SRC + SRC + udp(b"", user=b"abc"), "refused 4"),
    # verdicts
    "none": (SRC + DST + udp(b"", user=b"hello"), "none"),
    "none_longest": (SRC + DST + udp(b"", user=b"\xa5" * 65507), "none"),
    "short_one_byte": (SRC + DST + udp(b"\x07"), "short"),
    "short_odd": (SRC + DST + udp(b"\x07\x00", user=b"x"), "short"),
    "pad": (SRC + DST + udp(b"\x01\xff\xfd", user=b"x"), "pad"),
    "unsummed": (SRC + DST + udp(area_of(TOKEN, ocs=0)), "unsummed"),
    "badsum": (SRC + DST + udp(area_of(TOKEN, ocs=0x1111)), "badsum"),
    "malformed_length": (SRC + DST + udp(area_of(b"\x06\x05\0\0\0")), "malformed at 10"),
    "malformed_past_the_end": (SRC + DST + udp(area_of(TOKEN + b"\x09\x04\x01")), "malformed at 16"),
    "malformed_frag_late": (SRC + DST + udp(area_of(TOKEN + FRAG(26))), "malformed at 16"),
    "unsafe": (SRC + DST + udp(area_of(TOKEN + b"\xc0"), user=b"ab"), "unsafe at 18"),
    "fragdata": (SRC + DST + udp(area_of(FRAG(22), size=10), user=b"ab"), "fragdata at 12"),
    "crowded": (SRC + DST + udp(area_of(opt(9, b"") * 33)), "crowded at 74"),
    "piece": (SRC + DST + udp(area_of(FRAG(20) + b"first")), "piece"),
    "piece_last": (SRC + DST + udp(area_of(FRAG(22, struct.pack(">H", 11)) + b"end")), "piece"),
    "piece_31_others": (SRC + DST + udp(area_of(FRAG(82) + opt(9, b"") * 31 + b"xyz")), "piece"),
    "crowded_behind_frag": (SRC + DST + udp(area_of(FRAG(84) + opt(9, b"") * 32 + b"xyz")), "crowded at 82"),
    "piece_behind_eol": (SRC + DST + udp(area_of(FRAG(21) + b"\0" + b"first")), "piece"),
    "piece_behind_fill": (SRC + DST + udp(area_of(FRAG(26) + b"\0" * 6 + b"\xc0\x03")), "piece"),
    "tail_right_behind_eol": (SRC + DST + udp(area_of(TOKEN + b"\0\xff\0\0", size=10), user=b"ab"), "tail at 19"),
    "tail_last_byte": (SRC + DST + udp(area_of(TOKEN + b"\0" * 9 + b"\x01", size=9), user=b"x"), "tail at 27"),
    "tail_last_byte_longest": (SRC + DST + udp(area_of(TOKEN + b"\0" * 65498 + b"\x80")), "tail at 65514"),
    "tail_no_sums": (SRC + DST + udp(area_of(TOKEN + b"\0\0\x01", size=9, ocs=0), user=b"x", checksum=0), "tail at 20"),
    "tail_option_behind_eol": (SRC + DST + udp(area_of(b"\0" + TOKEN)), "tail at 11"),
    "tail_unsafe_behind_eol": (SRC + DST + udp(area_of(TOKEN + b"\0\xc0", size=10), user=b"ab"), "tail at 19"),
    "tail_frag_behind_eol": (SRC + DST + udp(area_of(b"\0" + FRAG(21) + b"first")), "tail at 11"),
    "tail_behind_32_options": (SRC + DST + udp(area_of(opt(9, b"") * 32 + b"\0" + opt(9, b""))), "tail at 75"),
    "tail_in_piece": (SRC + DST + udp(area_of(FRAG(22) + b"\0\x01" + b"first")), "tail at 21"),
    "tail_in_piece_last_byte": (SRC + DST + udp(area_of(FRAG(30) + TOKEN + b"\0\0\0\x80" + b"first")), "tail at 29"),
    "malformed_before_tail": (SRC + DST + udp(area_of(b"\x06\x05\0\0\0" + b"\0\xff")), "malformed at 10"),
    "unsafe_before_tail": (SRC + DST + udp(area_of(b"\xc0\0\xff")), "unsafe at 10"),
    "crowded_before_tail": (SRC + DST + udp(area_of(opt(9, b"") * 33 + b"\0\xff")), "crowded at 74"),
    "fragdata_before_tail": (SRC + DST + udp(area_of(FRAG(24) + b"\0\x01", size=10), user=b"ab"), "fragdata at 12"),
    # runs of NOPs
    "read_7_nops_before": (SRC + DST + udp(area_of(NOPS(7) + TOKEN, size=10), user=b"ab"), "read: 6 at 19"),
    "read_8_nops_before": (SRC + DST + udp(area_of(NOPS(8) + TOKEN, size=10), user=b"ab"), "read: 6 at 20"),
    "read_7_nops_between": (SRC + DST + udp(area_of(TOKEN + NOPS(7) + opt(9, b"xy"), size=9), user=b"x"), "read: 6 at 12, 9 at 25"),
    "read_8_nops_between": (SRC + DST + udp(area_of(TOKEN + NOPS(8) + opt(9, b"xy"), size=9), user=b"x"), "read: 6 at 12, 9 at 26"),
    "read_7_nops_behind": (SRC + DST + udp(area_of(TOKEN + NOPS(7))), "read"),
    "read_8_nops_behind": (SRC + DST + udp(area_of(TOKEN + NOPS(8))), "read"),
    "read_8_nops_before_fill": (SRC + DST + udp(area_of(TOKEN + NOPS(8) + b"\0\0\0")), "read"),
    "read_8_nops_as_a_body": (SRC + DST + udp(area_of(opt(9, NOPS(8)))), "read: 9 at 10"),
    "unsafe_behind_8_nops": (SRC + DST + udp(area_of(NOPS(8) + b"\xc0")), "unsafe at 18"),
    "tail_8_nops_behind_eol": (SRC + DST + udp(area_of(b"\0" + NOPS(8))), "tail at 11"),
    "piece_behind_7_nops": (SRC + DST + udp(area_of(NOPS(7) + FRAG(27) + b"first")), "piece"),
    "piece_behind_8_nops": (SRC + DST + udp(area_of(NOPS(8) + FRAG(28) + b"first")), "piece"),
    "fragdata_behind_8_nops": (SRC + DST + udp(area_of(NOPS(8) + FRAG(30), size=10), user=b"ab"), "fragdata at 20"),
    "piece_with_7_nops": (SRC + DST + udp(area_of(FRAG(27) + NOPS(7) + b"first")), "piece"),
    "piece_with_8_nops": (SRC + DST + udp(area_of(FRAG(28) + NOPS(8) + b"first")), "piece"),
    "read_nops_only": (SRC + DST + udp(area_of(NOPS(1400))), "read"),
    "read_nops_longest": (SRC + DST + udp(area_of(NOPS(65499) + TOKEN)), "read: 6 at 65509"),
    "malformed_across_frag_start": (SRC + DST + udp(area_of(FRAG(22) + opt(9, b"ab"))), "malformed at 20"),
    "read_line1": (SRC + DST + udp(bytes.fromhex("f8c506060000012c")), "read: 6 at 10"),
    "read_line2": (SRC + DST + udp(bytes.fromhex("00f8c406060000012c"), user=b"x"), "read: 6 at 12"),
    "read_empty": (SRC + DST + udp(bytes.fromhex("fffd")), "read"),
    "read_no_sums": (SRC + DST + udp(area_of(TOKEN, ocs=0), checksum=0), "read"),
    "read_fill": (SRC + DST + udp(area_of(TOKEN + b"\0\0\0")), "read"),
    "read_fill_longest": (SRC + DST + udp(area_of(TOKEN + b"\0" * 65499)), "read"),
    "read_mixed": (
        SRC + DST + udp(area_of(MIXED, size=40), user=b"\0" * 32),
        "read: 2 at 43, 4 at 49, 5 at 53, 6 at 60, 7 at 66, 8 at 72, 9 at 82, 127 at 84, 191 at 91"
    ),
    "read_apc_wrong": (SRC + DST + udp(area_of(opt(2, b"\0\0\0\1"), size=10), user=b"ab"), "read"),
    "read_extended": (SRC + DST + udp(area_of(opt(10, bytes(range(256))) + opt(11, b"\xde\xad" * 200))), "read: 10 at 10, 11 at 270"),
    "read_32_options": (SRC + DST + udp(area_of(opt(9, b"") * 32 + b"\0")), "read"),
    "read_longest": (SRC + DST + udp(area_of(opt(191, b"\xc3" * 65501))), "read"),
    # offsets: behind options, NOPs, a pad byte, an extended option, in a fragment's list
    "malformed_behind_nops": (SRC + DST + udp(area_of(NOPS(3) + b"\x06\x05\0\0\0", size=11), user=b"abc"), "malformed at 17"),
    "malformed_behind_option_and_nop": (SRC + DST + udp(area_of(TOKEN + NOPS(1) + b"\x09", size=9), user=b"x"), "malformed at 19"),
    "malformed_behind_extended": (SRC + DST + udp(area_of(opt(10, b"\xc0" * 300) + b"\x06\x05\0\0\0")), "malformed at 314"),
    "malformed_in_piece": (SRC + DST + udp(area_of(FRAG(26) + MDS + b"\x09\x01" + b"first")), "malformed at 24"),
    "malformed_in_piece_behind_nops": (SRC + DST + udp(area_of(NOPS(2) + FRAG(25) + NOPS(1) + b"\x09\x00" + b"first")), "malformed at 23"),
    "malformed_frag_start_behind_nops": (SRC + DST + udp(area_of(NOPS(2) + FRAG(21) + b"first")), "malformed at 12"),
    "malformed_frag_late_behind_nops": (SRC + DST + udp(area_of(MDS + NOPS(3) + FRAG(31), size=11), user=b"abc"), "malformed at 21"),
    "malformed_frag_twice": (SRC + DST + udp(area_of(FRAG(31) + NOPS(1) + FRAG(31) + b"first")), "malformed at 21"),
    "unsafe_behind_nops": (SRC + DST + udp(area_of(NOPS(2) + b"\xff\0", size=9), user=b"x"), "unsafe at 14"),
    "unsafe_behind_unsafe_body": (SRC + DST + udp(area_of(opt(9, b"\xc0\xc0\xc0") + NOPS(1) + b"\xc1\x02")), "unsafe at 16"),
    "unsafe_in_piece": (SRC + DST + udp(area_of(FRAG(28) + TOKEN + NOPS(1) + b"\xc0" + b"first")), "unsafe at 27"),
    "fragdata_behind_nops": (SRC + DST + udp(area_of(NOPS(3) + FRAG(25), size=9), user=b"x"), "fragdata at 15"),
    "crowded_behind_nops": (SRC + DST + udp(area_of(TOKEN + opt(9, b"") * 31 + NOPS(2) + MDS + TOKEN, size=9), user=b"x"), "crowded at 82"),
    "crowded_in_piece_behind_nops": (SRC + DST + udp(area_of(NOPS(1) + FRAG(87) + NOPS(2) + opt(9, b"") * 32 + b"xyz")), "crowded at 85"),
    "tail_two_bytes": (SRC + DST + udp(area_of(TOKEN + b"\0\0\0\x05\0\x07", size=11), user=b"abc"), "tail at 23"),
    "tail_behind_zero_body": (SRC + DST + udp(area_of(opt(9, b"\0" * 4) + b"\0\0\x09")), "tail at 18"),
    "read_empty_bodies": (
        SRC + DST + udp(area_of(NOPS(1) + opt(9, b"") + TOKEN + opt(191, b""), size=9), user=b"x"),
        "read: 9 at 13, 6 at 15, 191 at 21"
    ),
    "read_empty_body": (SRC + DST + udp(area_of(opt(9, b""))), "read: 9 at 10"),
    "read_behind_extended": (
        SRC + DST + udp(area_of(opt(10, b"\x07" * 251, extended=True) + NOPS(2) + TOKEN + MDS + b"\0", size=11), user=b"abc"),
        "read: 10 at 14, 6 at 271, 4 at 277"
    ),
}


def given(text):
    """What a text gives, in the words of the samples; `stand` has the kinds and offsets of its options."""
    lines = text.splitlines()
    if text.startswith("refused"):
        return lines[0], ""
    stand = ", ".join(f"{words[1]} at {words[-1]}" for words in map(str.split, lines[2:-1]))
    return lines[1].removeprefix("verdict "), stand


def main():
    os.makedirs(OUT, exist_ok=True)
    for name, (data, meant) in sorted(SAMPLES.items()):
        text = expected(data)
        got, stand = given(text)
        if meant not in (got, f"{got}: {stand}"):
            sys.exit(f"{name}: meant {meant}, predicted {got}: {stand}")
        open(os.path.join(OUT, name + ".bin"), "wb").write(data)
        open(os.path.join(OUT, name + ".txt"), "w").write(text)
    print(len(SAMPLES), "samples")


if __name__ == "__main__":
    main()
