"""The vectors: groups of packets and originals, each with what document 01 and R-2, R-6 and R-7 of document 02 say of it. A fault of the
walk has its offset, counted by hand: without data a list starts at 10, behind one byte of it or two at 12, in an original too."""
import reader
from parts import *
from reader import crc32c

A = b"\x41"
AB = b"\x41\x42"
ZEROS = bytes(32)
P, O, W = Packet, Original, Walk


def without_pseudo_header(data):
    """The checksum of a datagram summed without the pseudo-header."""
    return reader.sent(reader.words(PORTS + n(8 + len(data), 2) + b"\0\0" + data))


def over_everything(data, surplus):
    """The checksum summed to the payload's end and not to L."""
    size = 8 + len(data)
    return reader.sent(reader.words(reader.pseudo(SOURCE, DESTINATION, size) + PORTS + n(size, 2) + b"\0\0" + data + surplus))


def other_parity(options):
    """The option checksum behind a pad whose sum is right if words are paired from the area's first byte."""
    body = b"".join(o.data for o in options)
    for ocs in range(1, 65536):
        whole = b"\0" + n(ocs, 2) + body
        if reader.fold(len(whole) + reader.words(whole)) == 0xFFFF:
            return ocs


def last_byte_low(options):
    """The option checksum at an even offset whose sum is right if a single last byte is the low half of its word."""
    body = b"".join(o.data for o in options)
    return reader.sent(2 + len(body) + reader.words(body[:-1]) + body[-1])


def mixed(size):
    """Bytes of no pattern."""
    return bytes((167 * i * i + 59 * i + 201) % 65537 % 251 for i in range(size))


def long_option(whole):
    """An option of so many bytes, 255 or more, with a body of no pattern."""
    return Part(f"kind 9 of {whole} bytes", b"\x09\xff" + n(whole, 2) + mixed(whole - 4))


def bad_fill(size, at, value):
    """So many zeros, but for one byte."""
    return Part(f"{size} zeros, but byte {at} is {value:02x}", bytes(at) + bytes([value]) + bytes(size - at - 1))


def runs(name, want, around, data=b"", sizes=(7, 8, 9), sort=P, at=None, **more):
    """A vector for each of these lengths of a run of NOPs, which `around` has among its options; eight or more are padded. The run starts
    at the offset `at`, or else at the list's front."""
    first = at or 10 + len(data) + len(data) % 2

    def vector(size):
        plain = want(size) if callable(want) else want
        return sort(f"{name}-{size}", plain, around(size), data, strict=f"padded at {first + 7}" if size > 7 else None, **more)
    return [vector(size) for size in sizes]


def spaced(count):
    """So many options, seven NOPs before each."""
    return Part(f"{count} times 7 NOPs and kind 9 of 2 bytes", (b"\x01" * 7 + b"\x09\x02") * count)


GROUPS = {}


def group(module, function, comment, *vectors):
    GROUPS.setdefault(module, []).append((function, comment, vectors))


# ---------------------------------------------------------------- figures and refusals
group("refusals", "figures", "Document 01's figures.",
      P("figure-1", "read 1", [REQ(300)]),
      P("figure-2", "read 1", [REQ(300)], A),
      P("figure-3", "read 0", []),
      P("figure-4", "read 1", [REQ(63985)]),
      P("figure-5", "short", surplus=b"\x2a"),
      P("figure-6", "pad", data=A, surplus=b"\x01\xff\xfd"),
      P("figure-7", "malformed at 10", [raw("kind 6 of 5 bytes", "0605000000")]))

group("refusals", "sizes", "Refusals 1 and 3.",
      P("no-bytes", "refused 1", whole=b"", note="No bytes."),
      P("seven-bytes", "refused 1", whole=bytes.fromhex("04d2162e000800"), note="A header without its last byte."),
      P("eight-bytes", "none", udp=0),
      P("length-0", "refused 3", size=0, udp=0),
      P("length-7", "refused 3", size=7, udp=0),
      P("length-7-bad-checksum", "refused 3", size=7, udp=0xFFFF, note="3 comes before 4."),
      P("length-one-past", "refused 3", data=A, size=10, udp=0),
      P("length-65535", "refused 3", [REQ(300)], size=65535, udp=0))

group("refusals", "checksums", "Refusal 4, and checksums that pass.",
      P("checksum-even", "none", data=AB),
      P("checksum-odd", "none", data=b"\x41\x42\x43"),
      P("checksum-wrong-even", "refused 4", data=AB, udp=0x1234),
      P("checksum-wrong-odd", "refused 4", data=b"\x41\x42\x43", udp=0x1234),
      P("checksum-zero", "none", data=AB, udp=0),
      P("checksum-ffff", "none", data=bytes.fromhex("f89d"), note="All else sums to ffff, so ffff is sent."),
      P("checksum-no-pseudo-header", "refused 4", data=AB, udp=without_pseudo_header(AB), note="The sum of the datagram alone."),
      P("checksum-whole-payload", "refused 4", data=AB, surplus=b"\x01", udp=over_everything(AB, b"\x01"),
        note="The sum over the area too: it has to end at L."))

group("refusals", "addresses", "Checksums under other addresses.",
      P("other-source", "refused 4", data=AB, addresses=(bytes([192, 0, 2, 2]), DESTINATION), note="From 192.0.2.2."),
      P("other-destination", "refused 4", data=AB, addresses=(SOURCE, bytes([198, 51, 100, 8])), note="To 198.51.100.8."),
      P("other-source-unused", "none", data=AB, udp=0, addresses=(bytes([192, 0, 2, 2]), DESTINATION), note="From 192.0.2.2."),
      P("exchanged", "none", data=AB, addresses=(DESTINATION, SOURCE), note="The two addresses exchanged: the same sum."))

# ---------------------------------------------------------------- the start of the area
group("verdicts", "starts", "No area, areas too short, and pads.",
      P("none-odd", "none", data=A),
      P("short-odd-1", "short", data=A, surplus=b"\x00"),
      P("short-odd-2", "short", data=A, surplus=b"\x00\x00"),
      P("short-odd-pad-1", "short", data=A, surplus=b"\x07"),
      P("short-odd-pad-2", "short", data=A, surplus=b"\x07\x00"),
      P("pad-unsummed", "pad", data=A, surplus=b"\x07\x00\x00", note="Pad comes before unsummed."),
      P("pad-summed", "pad", [REQ(300)], A, pad=7),
      P("pad-unused-sums", "pad", data=A, udp=0, surplus=b"\x80\x00\x00"))

group("verdicts", "unsummed", "No option checksum.",
      P("unsummed-even", "unsummed", [REQ(300)], AB, ocs=0),
      P("unsummed-odd", "unsummed", [REQ(300)], A, ocs=0),
      P("unsummed-malformed", "unsummed", [raw("REQ cut short", "0606")], ocs=0, note="Unsummed comes before malformed."),
      P("unsummed-unsafe", "unsummed", [K(192)], AB, ocs=0),
      P("both-zero-empty", "read 0", [], udp=0, ocs=0),
      P("both-zero-even", "read 1", [REQ(300)], AB, udp=0, ocs=0),
      P("both-zero-odd", "read 1", [REQ(300)], A, udp=0, ocs=0),
      P("both-zero-malformed", "malformed at 10", [raw("REQ cut short", "0606")], udp=0, ocs=0))

group("verdicts", "sums", "Option checksums, right and wrong.",
      P("badsum-even", "badsum", [REQ(300)], AB, ocs=0xF8C4),
      P("badsum-odd", "badsum", [REQ(300)], A, ocs=0xF8C5),
      P("badsum-malformed", "badsum", [raw("REQ cut short", "0606")], ocs=0xFFFF, note="Badsum comes before malformed."),
      P("badsum-no-length", "badsum", [REQ(300)], ocs=0xF8CD, note="The area's length is not in this sum."),
      P("badsum-other-parity", "badsum", [REQ(300)], A, ocs=other_parity([REQ(300)]), note="Paired from the area's first byte."),
      P("unused-udp-right", "read 1", [REQ(300)], AB, udp=0),
      P("unused-udp-wrong", "badsum", [REQ(300)], AB, udp=0, ocs=0x0001),
      P("unused-udp-odd", "read 1", [REQ(300)], A, udp=0))

group("verdicts", "missing_bytes", "Areas that end at an odd offset: the missing byte counts as 0.",
      P("odd-end-even-start", "read 1", [MRDS(1500, 7)], AB),
      P("odd-end-odd-start", "read 1", [MRDS(1500, 7)], A),
      P("odd-end-swapped", "badsum", [MRDS(1500, 7)], AB, ocs=last_byte_low([MRDS(1500, 7)]), note="The last byte counted as the low half of its word."),
      P("ocs-ffff-odd", "read 1", [REQ(63984)], A, note="All else sums to ffff."),
      P("ocs-ffff-wrong", "badsum", [REQ(63986)], ocs=0xFFFF))

# ---------------------------------------------------------------- kinds and lengths
group("lengths", "kinds", "Each kind at its own length.",
      P("every-fixed-kind", "read 6 wrong", [APC(1), MDS(1500), MRDS(9000, 4), REQ(1), RES(2), TIME(3, 4)], AB),
      P("varying-kinds", "read 6", [K(9), K(10, "00"), K(126, "0203"), K(127), K(128, "c0"), K(191, "00000000")], AB),
      P("repeated-kind", "read 3", [REQ(1), REQ(1), REQ(2)], AB),
      P("nops-between", "read 2", [NOP, REQ(1), NOP, NOP, RES(1), NOP], AB),
      P("nops-only", "read 0", [NOP] * 9, AB, strict="padded at 19"),
      P("body-of-unsafe-bytes", "read 1", [K(9, "ffc003000101")], AB))

group("lengths", "short_of", "A fixed kind one byte short of its own length.",
      P("apc-5", "malformed at 10", [raw("APC of 5 bytes", "0205000000"), REQ(1)]),
      P("mds-3", "malformed at 10", [raw("MDS of 3 bytes", "040305")]),
      P("mrds-4", "malformed at 10", [raw("MRDS of 4 bytes", "050405dc")]),
      P("req-5", "malformed at 10", [raw("REQ of 5 bytes", "0605000001"), NOP]),
      P("res-5", "malformed at 10", [raw("RES of 5 bytes", "0705000001"), NOP]),
      P("time-9", "malformed at 10", [raw("TIME of 9 bytes", "080900000001000000"), NOP]),
      P("mds-2", "malformed at 10", [raw("MDS of 2 bytes", "0402"), EOL]))

group("lengths", "past", "A fixed kind one byte over its own length.",
      P("apc-7", "malformed at 10", [raw("APC of 7 bytes", "02070000000000")]),
      P("mds-5", "malformed at 10", [raw("MDS of 5 bytes", "040505dc00")]),
      P("mrds-6", "malformed at 10", [raw("MRDS of 6 bytes", "050605dc0100")]),
      P("req-7", "malformed at 10", [raw("REQ of 7 bytes", "06070000000100")]),
      P("res-7", "malformed at 10", [raw("RES of 7 bytes", "07070000000100")]),
      P("time-11", "malformed at 10", [raw("TIME of 11 bytes", "080b000000010000000200")]),
      P("req-10", "malformed at 10", [raw("REQ of 10 bytes", "060a0000000100000002")]))

group("lengths", "unsafe_kinds", "Kinds 192 to 255.",
      P("unsafe-192", "unsafe at 10", [K(192, "00")]),
      P("unsafe-255", "unsafe at 10", [K(255)]),
      P("unsafe-with-data", "unsafe at 12", [K(193)], AB),
      P("unsafe-length-0", "unsafe at 10", [raw("kind 254, length byte 0", "fe00")], note="Its length is not looked at."),
      P("unsafe-behind-option", "unsafe at 19", [REQ(1), NOP, K(192)], A),
      P("unsafe-behind-malformed", "malformed at 10", [raw("kind 9, length byte 1", "0901"), K(192)]),
      P("unsafe-before-malformed", "unsafe at 10", [K(192), raw("kind 9, length byte 1", "0901")]),
      P("safe-191", "read 1", [K(191)]))

group("lengths", "length_bytes", "Length bytes 0, 1 and 2.",
      P("kind-9-length-0", "malformed at 10", [raw("kind 9, length byte 0", "0900"), NOP]),
      P("kind-9-length-1", "malformed at 10", [raw("kind 9, length byte 1", "0901"), NOP]),
      P("kind-9-length-2", "read 1", [K(9), NOP]),
      P("kind-127-length-2", "read 1", [K(127)]),
      P("kind-191-length-1", "malformed at 10", [raw("kind 191, length byte 1", "bf01"), NOP]),
      P("req-length-0", "malformed at 10", [raw("REQ, length byte 0", "060000000001")]),
      P("req-length-1", "malformed at 10", [raw("REQ, length byte 1", "060100000001")]))

group("lengths", "ends", "Options at the end of the area.",
      P("to-the-end", "read 1", [K(9, "aabb")]),
      P("one-past-the-end", "malformed at 10", [raw("kind 9, length byte 5, with 4 bytes", "0905aabb")]),
      P("far-past-the-end", "malformed at 16", [REQ(1), raw("kind 9, length byte 254, with 3 bytes", "09feaa")]),
      P("req-one-past-the-end", "malformed at 10", [raw("REQ without its last byte", "0606000001")]),
      P("extended-without-length", "malformed at 10", [raw("kind 9, length byte 255, nothing behind", "09ff")]),
      P("extended-half-length", "malformed at 10", [raw("kind 9, length byte 255, half a length", "09ff01")]),
      P("extended-cut-short", "malformed at 10", [raw("kind 9, extended length 255, no body", "09ff00ff")]))

group("lengths", "last_bytes", "A kind byte as the last byte.",
      P("last-byte-0", "read 1 fill 1", [K(9), EOL]),
      P("last-byte-1", "read 1", [K(9), NOP]),
      P("last-byte-2", "malformed at 12", [K(9), raw("kind 2", "02")]),
      P("last-byte-3", "malformed at 10", [raw("kind 3", "03")]),
      P("last-byte-6", "malformed at 12", [K(9), raw("kind 6", "06")]),
      P("last-byte-9", "malformed at 12", [K(9), raw("kind 9", "09")]),
      P("last-byte-191", "malformed at 12", [K(9), raw("kind 191", "bf")]),
      P("last-byte-192", "unsafe at 12", [K(9), raw("kind 192", "c0")]))

group("large", "sound", "The short form up to 254 bytes and the extended one from 255. A body is all c0: a byte of it taken for a kind is unsafe.",
      P("short-254", "read 1", [raw("kind 9 of 254 bytes", "09fe")], fill=(0xC0, 8 + 2 + 254)),
      P("extended-255", "read 1", [raw("kind 9 of 255 bytes", "09ff00ff")], fill=(0xC0, 8 + 2 + 255)),
      P("extended-256", "read 1", [raw("kind 9 of 256 bytes", "09ff0100")], fill=(0xC0, 8 + 2 + 256)),
      P("extended-256-kind-191", "read 1", [raw("kind 191 of 256 bytes", "bfff0100")], AB, fill=(0xC0, 10 + 2 + 256)),
      P("extended-255-nops", "read 2", [REQ(1), raw("kind 9 of 255 bytes", "09ff00ff")], A, fill=(1, 10 + 2 + 6 + 255 + 3),
        note="Three NOPs are left behind the body."))

group("large", "malformed", "Extended lengths that are too small or run past the end.",
      P("extended-254", "malformed at 10", [raw("kind 9, extended length 254", "09ff00fe")], fill=(1, 8 + 2 + 254)),
      P("extended-0", "malformed at 10", [raw("kind 9, extended length 0", "09ff0000")], fill=(1, 8 + 2 + 256)),
      P("extended-4", "malformed at 10", [raw("kind 9, extended length 4", "09ff0004")], fill=(1, 8 + 2 + 256)),
      P("extended-255-cut", "malformed at 10", [raw("kind 9, extended length 255, one byte missing", "09ff00ff")], fill=(1, 8 + 2 + 254)),
      P("extended-256-cut", "malformed at 10", [raw("kind 9, extended length 256, one byte missing", "09ff0100")], fill=(1, 8 + 2 + 255)))

group("large", "other_kinds", "The extended form on a fixed kind is malformed, on an unsafe one unsafe.",
      P("extended-req-6", "malformed at 10", [raw("REQ, extended length 6", "06ff0006")], fill=(1, 8 + 2 + 256)),
      P("extended-req-255", "malformed at 10", [raw("REQ, extended length 255", "06ff00ff")], fill=(1, 8 + 2 + 255)),
      P("extended-apc-256", "malformed at 12", [raw("APC, extended length 256", "02ff0100")], AB, fill=(1, 10 + 2 + 256)),
      P("extended-frag-12", "malformed at 10", [raw("FRAG, extended length 12", "03ff000c")], fill=(1, 8 + 2 + 256)),
      P("extended-frag-256", "malformed at 10", [raw("FRAG, extended length 256", "03ff0100")], fill=(1, 8 + 2 + 256)),
      P("extended-unsafe", "unsafe at 10", [raw("kind 192, extended length 4", "c0ff0004")], fill=(1, 8 + 2 + 256)))

group("large", "largest", "The largest payload.",
      P("largest-user-data", "none", size=65515, fill=(0xA5, 65515)),
      P("largest-odd-length", "short", size=65513, fill=(0xA5, 65515)),
      P("largest-option", "read 1", [raw("kind 9 of 65,505 bytes", "09ffffe1")], fill=(0xA5, 65515)),
      P("largest-option-past", "malformed at 10", [raw("kind 9, extended length 65,506", "09ffffe2")], fill=(0xA5, 65515)),
      P("largest-extended-length", "malformed at 10", [raw("kind 9, extended length 65,535", "09ffffff")], fill=(0xA5, 65515)),
      P("largest-piece", "piece 65527 20-65515", [FRAG(20, 7, 65535)], fill=(0xC0, 65515)))

group("large", "long_lists", "Long fills, NOPs without end, and unsafe bytes.",
      P("fill-300", "read 1 fill 300", [REQ(1)], AB, fill=(0, 10 + 2 + 6 + 300)),
      P("largest-fill", "read 0 fill 65505", [], fill=(0, 65515)),
      P("largest-fill-of-ones", "tail at 11", [EOL], fill=(1, 65515)),
      P("largest-fill-first-byte", "tail at 19", [REQ(1), EOL, raw("a byte", "80")], AB, fill=(0, 65515)),
      P("largest-fill-before-the-start", "piece 0 65515-65515", [FRAG(65515, 7, 8)], fill=(0, 65515)),
      P("largest-fill-byte-before-the-start", "tail at 21", [FRAG(65515, 7, 8), EOL, raw("a byte", "01")], fill=(0, 65515)),
      P("largest-piece-behind-eol", "piece 0 21-65515", [FRAG(21, 7, 8), EOL], fill=(0xC0, 65515)),
      P("largest-nops", "read 0", [], fill=(1, 65515), strict="padded at 17"),
      P("largest-nops-behind-option", "read 1", [REQ(1)], A, fill=(1, 65515), strict="padded at 25"),
      P("largest-nops-behind-eol", "tail at 18", [nops(7), EOL], fill=(1, 65515)),
      P("largest-nops-as-a-body", "read 1", [nops(7), raw("kind 9 of 65,498 bytes", "09ffffda")], fill=(1, 65515)),
      P("largest-nops-before-the-start", "piece 0 65515-65515", [FRAG(65515, 7, 8)], fill=(1, 65515), strict="padded at 27"),
      P("largest-nops-behind-the-start", "piece 0 27-65515", [FRAG(27, 7, 8)], fill=(1, 65515), note="Seven NOPs, then the fragment."),
      P("largest-unsafe", "unsafe at 10", [], fill=(0xC0, 65515)))

group("large", "refused", "One byte more than the largest payload: refusal 2 comes before 3 and 4.",
      P("one-more", "refused 2", udp=0, fill=(0, 65516)),
      P("one-more-length-0", "refused 2", size=0, udp=0, fill=(0, 65516)),
      P("one-more-bad-checksum", "refused 2", udp=0x1234, fill=(0, 65516)),
      P("largest-length-one-past", "refused 3", size=65516, udp=0, fill=(0, 65515)),
      P("largest-bad-checksum", "refused 4", size=65515, udp=0x1234, fill=(0xA5, 65515)))

# ---------------------------------------------------------------- EOL, counts, APC
group("lists", "eol", "EOL at each position, and what stands behind it.",
      P("eol-alone", "read 0 fill 1", [EOL]),
      P("eol-and-zeros", "read 0 fill 4", [EOL, raw("zeros", "000000")], AB),
      P("eol-and-bytes", "tail at 13", [EOL, raw("bytes that are not zero", "0906c0")], AB),
      P("eol-between", "tail at 19", [REQ(1), EOL, RES(2)], AB),
      P("eol-last", "read 2 fill 1", [REQ(1), RES(2), EOL], A),
      P("eol-behind-nop", "read 0 fill 3", [NOP, NOP, EOL, raw("zeros", "0000")]),
      P("eol-before-nops", "tail at 13", [NOP, NOP, EOL, NOP, NOP]),
      P("eol-before-malformed", "tail at 17", [REQ(1), EOL, raw("kind 9, length byte 0", "0900")]),
      P("eol-before-unsafe", "tail at 19", [REQ(1), EOL, K(192)], AB, note="Not unsafe: the walk has ended."))

group("lists", "eol_order", "EOL and faults: the first met decides.",
      P("eol-behind-malformed", "malformed at 10", [raw("kind 9, length byte 0", "0900"), EOL]),
      P("eol-behind-unsafe", "unsafe at 10", [K(192), EOL, EOL]),
      P("eol-in-a-body", "read 2", [K(9, "0000"), REQ(1)]),
      P("eol-before-frag", "tail at 11", [EOL, FRAG(21, 7, 8), fragment("aabbccdd")]),
      P("eol-before-frag-with-data", "tail at 13", [EOL, FRAG(23, 7, 8), fragment("aabbccdd")], AB),
      P("eol-behind-nop-before-frag", "tail at 12", [NOP, EOL, FRAG(22, 7, 8), fragment("aabbccdd")]))

group("lists", "tails", "Bytes behind EOL, up to the end: one that is not zero gives tail.",
      P("tail-right-behind-eol", "tail at 19", [REQ(1), EOL, raw("a byte", "01")], AB),
      P("tail-right-behind-eol-odd", "tail at 19", [REQ(1), EOL, raw("a byte", "ff")], A),
      P("tail-no-option", "tail at 11", [EOL, raw("a byte", "80")]),
      P("tail-last-byte", "tail at 23", [REQ(1), EOL, raw("zeros and a last byte", "0000000001")], AB),
      P("tail-last-byte-odd", "tail at 23", [REQ(1), EOL, raw("zeros and a last byte", "0000000080")], A),
      P("tail-first-of-zeros", "tail at 19", [REQ(1), EOL, raw("a byte and zeros", "0100000000000000000000")], AB),
      P("tail-a-second-eol", "tail at 21", [REQ(1), EOL, EOL, EOL, NOP], AB),
      P("tail-no-sums", "tail at 19", [REQ(1), EOL, raw("a byte", "01")], AB, udp=0, ocs=0),
      P("tail-no-sums-odd", "tail at 19", [REQ(1), EOL, raw("a byte", "01")], A, udp=0, ocs=0),
      P("tail-no-udp-sum", "tail at 19", [REQ(1), EOL, raw("a byte", "01")], AB, udp=0),
      P("tail-no-udp-sum-odd", "tail at 19", [REQ(1), EOL, raw("a byte", "01")], A, udp=0),
      P("fill-odd", "read 1 fill 2", [REQ(1), EOL, raw("a zero", "00")], A),
      P("fill-no-sums", "read 1 fill 2", [REQ(1), EOL, raw("a zero", "00")], AB, udp=0, ocs=0))

group("lists", "long_tails", "A byte in each part of a long fill.",
      *(P(f"tail-byte-{at}-of-{size}", f"tail at {19 + at}", [REQ(1), EOL, bad_fill(size, at, 1 << at % 8)], AB)
        for size, at in ((8, 7), (9, 8), (16, 8), (31, 15), (64, 31), (64, 63), (65, 64), (300, 0), (300, 150), (300, 299), (1400, 701))),
      *(P(f"tail-byte-{at}-of-{size}-odd", f"tail at {19 + at}", [REQ(1), EOL, bad_fill(size, at, 1 << at % 8)], A)
        for size, at in ((8, 7), (63, 62), (300, 150), (300, 299))),
      P("fill-of-64", "read 1 fill 65", [REQ(1), EOL, raw("64 zeros", "00" * 64)], AB))

group("lists", "tail_order", "Tail and the tests before it: it is tested when EOL is met.",
      P("tail-behind-malformed", "malformed at 12", [raw("kind 9, length byte 1", "0901"), EOL, raw("a byte", "01")], AB),
      P("tail-behind-a-cut-option", "malformed at 12", [raw("kind 6 of 5 bytes", "0605000000"), EOL, raw("a byte", "01")], AB),
      P("tail-behind-frag-in-the-wrong-place", "malformed at 14", [MDS(1500), FRAG(24, 7, 8), EOL, raw("a byte", "01")]),
      P("tail-behind-unsafe", "unsafe at 12", [K(192), EOL, raw("a byte", "01")], AB),
      P("tail-with-apc", "tail at 19", [APC(crc32c(AB)), EOL, raw("a byte", "01")], AB, note="The APC is not reported."),
      P("tail-unsummed", "unsummed", [REQ(1), EOL, raw("a byte", "01")], AB, ocs=0),
      P("tail-badsum", "badsum", [REQ(1), EOL, raw("a byte", "01")], AB, ocs=0x1234),
      P("tail-bad-pad", "pad", [REQ(1), EOL, raw("a byte", "01")], A, pad=7))

group("lists", "runs_of_nops", "Runs of NOPs: in strict reading the eighth in a row gives padded.",
      *runs("nops-alone", "read 0", lambda n: [nops(n)], sizes=range(1, 18)),
      *runs("nops-alone-odd", "read 0", lambda n: [nops(n)], A),
      *runs("nops-before", "read 1", lambda n: [nops(n), REQ(1)], AB),
      *runs("nops-before-odd", "read 1", lambda n: [nops(n), REQ(1)], A),
      *runs("nops-between-options", "read 2", lambda n: [REQ(1), nops(n), RES(2)], AB, at=18),
      *runs("nops-between-options-odd", "read 2", lambda n: [REQ(1), nops(n), RES(2)], A, at=18),
      *runs("nops-behind", "read 1", lambda n: [REQ(1), nops(n)], AB, at=18),
      *runs("nops-behind-odd", "read 1", lambda n: [REQ(1), nops(n)], A, at=18),
      *runs("nops-before-eol", "read 1 fill 3", lambda n: [REQ(1), nops(n), EOL, raw("zeros", "0000")], AB, at=18),
      *runs("nops-before-eol-odd", "read 0 fill 1", lambda n: [nops(n), EOL], A),
      *runs("nops-no-sums", "read 1", lambda n: [nops(n), REQ(1)], A, udp=0, ocs=0),
      *runs("nops-no-udp-sum", "read 1", lambda n: [REQ(1), nops(n)], AB, udp=0, at=18),
      *runs("nops-with-apc", "read 1 right", lambda n: [APC(crc32c(AB)), nops(n)], AB, at=18),
      *runs("nops-long", "read 2", lambda n: [REQ(1), nops(n), RES(2)], AB, sizes=(63, 64, 65, 72, 300, 1400), at=18),
      *runs("nops-long-before-32", "read 32", lambda n: [nops(n), many(32)], AB, sizes=(63, 64, 100, 1400)),
      *runs("nops-long-odd", "read 2", lambda n: [REQ(1), nops(n), RES(2)], A, sizes=(64, 71, 1400), at=18))

group("lists", "counts_of_nops", "Any other option starts the count again, and what is no NOP of the list does not count.",
      P("nops-7-option-7", "read 1", [nops(7), REQ(1), nops(7)], AB),
      P("nops-7-shortest-option-7", "read 1", [nops(7), K(9), nops(7)], A),
      P("nops-7-options-7", "read 3", [nops(7), K(9), nops(7), MDS(257), nops(7), K(191), nops(7)], AB),
      P("nops-7-option-8", "read 1", [nops(7), REQ(1), nops(8)], AB, strict="padded at 32"),
      P("nops-8-option-7", "read 1", [nops(8), REQ(1), nops(7)], A, strict="padded at 19"),
      P("nops-around-32", "read 32", [spaced(32), nops(7)], AB),
      P("nops-around-32-and-8", "read 32", [spaced(32), nops(8)], AB, strict="padded at 307"),
      *(P(f"nops-{n}-as-a-body", "read 1", [K(9, "01" * n)], AB) for n in (7, 8, 9, 40)),
      P("nops-as-a-body-odd", "read 1", [K(9, "01" * 9)], A),
      P("nops-7-body-7", "read 1", [nops(7), K(9, "01" * 9), nops(7)], AB),
      P("nops-as-fields", "read 2", [nops(7), TIME(0x01010101, 0x01010101), REQ(0x01010101), nops(7)], AB),
      *(P(f"nops-{n}-behind-eol", "tail at 13", [EOL, nops(n)], AB) for n in (7, 8, 9)),
      P("nops-behind-eol-odd", "tail at 19", [REQ(1), EOL, nops(8)], A),
      P("nops-7-eol-7", "tail at 20", [nops(7), EOL, nops(7)], AB))

group("lists", "order_of_nops", "Padded and other faults: the first met decides.",
      *runs("nops-before-unsafe", lambda n: f"unsafe at {12 + n}", lambda n: [nops(n), K(192)], AB),
      *runs("nops-before-malformed", lambda n: f"malformed at {12 + n}", lambda n: [nops(n), raw("kind 9, length byte 1", "0901")], A),
      *runs("nops-before-a-cut-option", lambda n: f"malformed at {18 + n}", lambda n: [REQ(1), nops(n), raw("kind 9", "09")], AB, at=18),
      *runs("nops-before-tail", lambda n: f"tail at {13 + n}", lambda n: [nops(n), EOL, raw("a byte", "01")], AB),
      *runs("nops-before-the-33rd", lambda n: f"crowded at {76 + n}", lambda n: [many(32), nops(n), many(1)], AB, at=76),
      *runs("nops-behind-32", "read 32", lambda n: [many(32), nops(n)], A, at=76),
      *runs("nops-before-frag-in-the-wrong-place", lambda n: f"malformed at {14 + n}", lambda n: [MDS(1), nops(n), FRAG(40, 7, 8)], at=14),
      P("nops-behind-unsafe", "unsafe at 12", [K(192), nops(9)], AB),
      P("nops-behind-malformed", "malformed at 12", [raw("kind 9, length byte 0", "0900"), nops(9)], AB),
      P("nops-behind-33", "crowded at 76", [many(33), nops(9)], AB),
      P("nops-unsummed", "unsummed", [nops(9)], AB, ocs=0),
      P("nops-badsum", "badsum", [nops(9)], AB, ocs=0x1234),
      P("nops-bad-pad", "pad", [nops(9)], A, pad=1),
      P("nops-bad-checksum", "refused 4", [nops(9)], AB, udp=0x1234),
      P("nops-of-the-user-data", "none", data=b"\x01" * 9))

group("lists", "options", "Where options stand: empty bodies, and options behind an extended one.",
      P("empty-bodies", "read 3", [K(9), NOP, K(191), K(127)]),
      P("empty-bodies-odd", "read 3 fill 2", [K(9), NOP, K(191), K(127), EOL, EOL], b"\x41\x42\x43"),
      P("behind-an-extended-option", "read 3", [long_option(255), K(10), REQ(1)], AB),
      P("behind-an-extended-option-odd", "read 4 fill 1", [NOP, REQ(1), long_option(300), MDS(1500), NOP, MRDS(1, 2), EOL], A))

group("lists", "fault_offsets", "Where a fault is met: behind options, NOPs and long data, not where the list or the bad byte is.",
      P("malformed-behind-options", "malformed at 33", [MDS(1500), REQ(1), K(9, "aabbcc"), NOP, NOP, raw("kind 10, length byte 0", "0a00")],
        b"\x41" * 5),
      P("malformed-behind-an-extended-option", "malformed at 267", [long_option(255), raw("REQ of 5 bytes", "0605000000")], AB),
      P("malformed-behind-an-extended-option-odd", "malformed at 313", [NOP, long_option(300), raw("kind 9, extended length 4", "09ff0004")], A),
      P("malformed-behind-long-data", "malformed at 1033", [NOP, raw("kind 9", "09")], mixed(1022)),
      P("frag-behind-extended-option", "malformed at 265", [long_option(255), FRAG(275, 7, 8)]),
      P("frag-behind-options-and-nops", "malformed at 23", [MDS(1500), NOP, MRDS(1, 2), NOP, NOP, NOP, FRAG(35, 7, 8, 8)], udp=0, ocs=0),
      P("unsafe-behind-an-extended-option", "unsafe at 312", [long_option(300), K(192)], A),
      P("unsafe-behind-a-body-of-such", "unsafe at 18", [K(9, "c0c0c0c0"), raw("kind 200", "c8")], AB),
      P("unsafe-behind-long-data", "unsafe at 1036", [K(9), K(255)], mixed(1023)),
      P("33rd-behind-long-options", "crowded at 374", [long_option(300), many(31), MDS(1), REQ(1)], AB),
      P("33rd-behind-nops-odd", "crowded at 144",
        [Part("32 times NOP, NOP and kind 9 of 2 bytes", b"\x01\x01\x09\x02" * 32), NOP, NOP, K(9)], b"\x41" * 3),
      P("tail-two-bytes", "tail at 22", [REQ(1), EOL, raw("zeros, two bytes, zeros", "000000050000000700")], A),
      P("tail-behind-zeros-of-a-body", "tail at 20", [K(9, "00000000"), EOL, EOL, raw("a byte", "09")], AB),
      P("tail-behind-an-extended-option", "tail at 313", [long_option(300), EOL, EOL, raw("a zero and a byte", "0001")]),
      P("nops-8-behind-options", "read 2", [nops(7), MDS(1500), nops(7), K(9), nops(8)], b"\x41" * 3, strict="padded at 41"),
      P("nops-8-behind-an-extended-option", "read 1", [long_option(255), nops(9)], AB, strict="padded at 274"))

group("lists", "counts", "The 33rd option.",
      P("32-options", "read 32", [many(32)]),
      P("33-options", "crowded at 74", [many(33)]),
      P("33-options-with-data", "crowded at 76", [many(33)], A),
      P("33rd-malformed", "malformed at 74", [many(32), raw("kind 9, length byte 1", "0901")]),
      P("33rd-cut-short", "malformed at 74", [many(32), raw("kind 9", "09")]))

group("lists", "other_counts", "The 33rd option of other kinds, and what does not count.",
      P("33rd-unsafe", "unsafe at 74", [many(32), K(192)]),
      P("33rd-frag", "malformed at 74", [many(32), FRAG(86, 7, 8)]),
      P("33rd-apc", "crowded at 74", [many(32), APC(0)]),
      P("34th-unsafe", "crowded at 74", [many(33), K(192)]),
      P("32-and-nops", "read 32 fill 3", [NOP, many(32), NOP, EOL, raw("zeros", "0000")]),
      P("32-eol-and-option", "tail at 77", [NOP, many(32), NOP, EOL, many(1)], note="The 33rd stands behind EOL."),
      P("32-eol-and-unsafe", "tail at 77", [many(32), EOL, K(192)], AB),
      P("33-eol-and-bytes", "crowded at 76", [many(33), EOL, raw("a byte", "01")], AB),
      P("33rd-malformed-eol-and-bytes", "malformed at 76", [many(32), raw("kind 9, length byte 1", "0901"), EOL, raw("a byte", "01")], AB),
      P("31-and-req", "read 32", [many(31), REQ(1)], AB))

group("lists", "apcs", "APC options.",
      P("apc-right", "read 1 right", [APC(0xAA36918A)], ZEROS),
      P("apc-wrong", "read 1 wrong", [APC(0x8A9136AA)], ZEROS, note="The other byte order."),
      P("apc-of-nothing", "read 1 right", [APC(0)]),
      P("apc-of-nothing-wrong", "read 1 wrong", [APC(1)]),
      P("apc-odd", "read 1 right", [APC(crc32c(A))], A),
      P("apc-digits", "read 2 right", [REQ(1), APC(0x839206E3)], b"123456789"),
      P("apc-last-bit", "read 1 wrong", [APC(0x839206E2)], b"123456789"))

group("lists", "long_apcs", "APC over longer user data.",
      *(P(f"apc-over-{size}", "read 1 right", [APC(crc32c(mixed(size)))], mixed(size)) for size in (40, 41, 64, 255, 256, 511, 512, 513, 1024)),
      P("apc-over-1024-last-bit", "read 1 wrong", [APC(crc32c(mixed(1024)) ^ 1)], mixed(1024)),
      P("apc-over-1024-other-byte", "read 1 wrong", [APC(crc32c(mixed(1023) + b"\0"))], mixed(1024), note="The CRC of other bytes."))

group("lists", "long_areas", "Option checksums over longer areas, L even and odd.",
      *(P(f"area-{whole + 2}-even", "read 1", [long_option(whole)], AB) for whole in (255, 256, 510, 1021)),
      *(P(f"area-{whole + 3}-odd", "read 1", [long_option(whole)], A) for whole in (255, 256, 510, 1021)),
      P("area-1024-odd-swapped", "badsum", [long_option(1021)], A, ocs=other_parity([long_option(1021)]), note="Paired from the area's first byte."))

group("lists", "several_apcs", "Several APC options: wrong if any differs.",
      P("apc-two-right", "read 2 right", [APC(crc32c(AB)), APC(crc32c(AB))], AB),
      P("apc-right-wrong", "read 2 wrong", [APC(crc32c(AB)), APC(1)], AB),
      P("apc-wrong-right", "read 2 wrong", [APC(1), APC(crc32c(AB))], AB),
      P("apc-two-that-differ", "read 2 wrong", [APC(1), APC(2)], AB),
      P("apc-two-wrong", "read 2 wrong", [APC(1), APC(1)], AB),
      P("apc-third-wrong", "read 3 wrong", [APC(crc32c(AB)), APC(crc32c(AB)), APC(1)], AB),
      P("apc-right-behind-eol", "tail at 13", [EOL, APC(crc32c(AB))], AB))

group("lists", "silent_apcs", "APC options that are not reported.",
      P("apc-before-malformed", "malformed at 18", [APC(crc32c(AB)), raw("kind 9, length byte 1", "0901")], AB),
      P("apc-before-unsafe", "unsafe at 18", [APC(crc32c(AB)), K(192)], AB),
      P("apc-on-badsum", "badsum", [APC(crc32c(AB))], AB, ocs=0x0001),
      P("apc-on-a-piece", "piece 0 26-28", [FRAG(26, 7, 8), APC(0), fragment("aabb")]))

# ---------------------------------------------------------------- FRAG
group("fragments", "pieces", "FRAG in front.",
      P("piece", "piece 0 20-24", [FRAG(20, 7, 8), fragment("aabbccdd")]),
      P("last-piece", "piece 4 22-26 last 6", [FRAG(22, 7, 12, 14), fragment("aabbccdd")]),
      P("piece-odd", "piece 100 20-23", [FRAG(20, 0xFFFFFFFF, 108), fragment("aabbcc")]),
      P("piece-behind-nop", "piece 0 21-23", [NOP, FRAG(21, 7, 8), fragment("aabb")]),
      P("piece-behind-nops", "piece 0 28-30", [NOP] * 8 + [FRAG(28, 7, 8), fragment("aabb")], strict="padded at 17"),
      P("piece-no-sums", "piece 0 20-22", [FRAG(20, 0, 8), fragment("aabb")], udp=0, ocs=0),
      P("piece-unsummed", "unsummed", [FRAG(20, 7, 8), fragment("aabb")], ocs=0),
      P("piece-badsum", "badsum", [FRAG(20, 7, 8), fragment("aabb")], ocs=0x1234))

group("fragments", "positions", "FRAG elsewhere.",
      P("frag-behind-option", "malformed at 14", [MDS(1500), FRAG(24, 7, 8), fragment("aabb")]),
      P("frag-behind-nop-and-option", "malformed at 13", [NOP, K(9), FRAG(23, 7, 8), fragment("aabb")]),
      P("frag-twice", "malformed at 20", [FRAG(30, 7, 8), FRAG(30, 7, 8), fragment("aabb")]),
      P("frag-behind-frag-cut", "malformed at 20", [FRAG(21, 7, 8), raw("kind 3", "03"), fragment("aabb")]),
      P("frag-in-the-fragment", "piece 0 20-30", [FRAG(20, 7, 8), FRAG(30, 7, 8)], note="The second FRAG is the fragment's bytes."),
      P("frag-behind-eol-on-a-piece", "tail at 21", [FRAG(31, 7, 8), EOL, FRAG(31, 7, 8), fragment("aabb")]),
      P("frag-behind-apc-with-data", "malformed at 18", [APC(crc32c(AB)), FRAG(28, 7, 8)], AB))

group("fragments", "lengths", "FRAG's length byte.",
      P("frag-9", "malformed at 10", [FRAG(20, 7, 8, length=9), fragment("aabbcc")]),
      P("frag-10", "piece 0 22-24", [FRAG(22, 7, 8), raw("two NOPs", "0101"), fragment("aabb")]),
      P("frag-11", "malformed at 10", [FRAG(22, 7, 8, length=11), raw("a byte", "01"), NOP, fragment("aabb")]),
      P("frag-12", "piece 0 22-24 last 2", [FRAG(22, 7, 8, 10), fragment("aabb")]),
      P("frag-13", "malformed at 10", [FRAG(23, 7, 8, 10, length=13), raw("a byte", "01"), fragment("aabb")]),
      P("frag-0", "malformed at 10", [raw("FRAG, length byte 0", "03000014000000070008")]),
      P("frag-one-past-the-end", "malformed at 10", [raw("FRAG without its last byte", "030a00140000000700")]),
      P("frag-12-one-past-the-end", "malformed at 10", [raw("FRAG of 12 bytes without the last", "030c001600000007000800")]))

group("fragments", "starts", "Frag. Start against FRAG's end and the payload's.",
      P("start-at-frags-end", "piece 0 20-24", [FRAG(20, 9, 8), fragment("aabbccdd")]),
      P("start-one-before", "malformed at 10", [FRAG(19, 9, 8), fragment("aabbccdd")]),
      P("start-one-before-12", "malformed at 10", [FRAG(21, 9, 8, 8), fragment("aabbccdd")]),
      P("start-at-frag", "malformed at 10", [FRAG(10, 9, 8), fragment("aabbccdd")]),
      P("start-0", "malformed at 10", [FRAG(0, 9, 8), fragment("aabbccdd")]),
      P("start-at-the-end", "piece 0 24-24", [FRAG(24, 9, 8), raw("four NOPs", "01010101")]),
      P("start-one-past", "malformed at 10", [FRAG(25, 9, 8), raw("four NOPs", "01010101")]),
      P("start-65535", "malformed at 10", [FRAG(65535, 9, 8), fragment("aabbccdd")]))

group("fragments", "more_starts", "Frag. Start of pieces with no bytes, and behind NOPs.",
      P("empty-piece", "piece 0 20-20", [FRAG(20, 9, 8)]),
      P("empty-last-piece", "piece 92 22-22 last 92", [FRAG(22, 9, 100, 100)]),
      P("start-behind-nops", "piece 0 23-24", [NOP, NOP, NOP, FRAG(23, 9, 8), fragment("aa")]),
      P("start-one-before-behind-nops", "malformed at 13", [NOP, NOP, NOP, FRAG(22, 9, 8), fragment("aa")]))

group("fragments", "origins", "Frag. Offset and option start: 8 is the first user byte.",
      P("offset-8", "piece 0 20-22", [FRAG(20, 9, 8), fragment("aabb")]),
      P("offset-7", "malformed at 10", [FRAG(20, 9, 7), fragment("aabb")]),
      P("offset-0-last", "malformed at 10", [FRAG(22, 9, 0, 10), fragment("aabb")], note="No exception for a single fragment."),
      P("offset-65535", "piece 65527 20-22", [FRAG(20, 9, 65535), fragment("aabb")]),
      P("option-start-8", "piece 0 22-24 last 0", [FRAG(22, 9, 8, 8), fragment("aabb")]),
      P("option-start-7", "malformed at 10", [FRAG(22, 9, 8, 7), fragment("aabb")]),
      P("option-start-0", "malformed at 10", [FRAG(22, 9, 8, 0), fragment("aabb")]),
      P("option-start-65535", "piece 2 22-24 last 65527", [FRAG(22, 9, 10, 65535), fragment("aabb")]))

group("fragments", "others", "Other options on a piece.",
      P("piece-with-options", "piece 0 30-32", [FRAG(30, 9, 8), MDS(1500), REQ(1), fragment("aabb")]),
      P("piece-option-to-the-start", "piece 0 24-26", [FRAG(24, 9, 8), K(9, "aabb"), fragment("0102")]),
      P("piece-option-straddles", "malformed at 20", [FRAG(24, 9, 8), raw("kind 9 of 5 bytes across Frag. Start", "0905aabb01"), fragment("02")]),
      P("piece-kind-byte-before-the-start", "malformed at 20", [FRAG(21, 9, 8), raw("kind 6", "06"), fragment("0600000001")]),
      P("piece-malformed", "malformed at 20", [FRAG(24, 9, 8), raw("kind 9, length byte 1", "0901"), K(9), fragment("aabb")]),
      P("piece-unsafe", "unsafe at 20", [FRAG(22, 9, 8), K(192), fragment("aabb")]),
      P("piece-unsafe-last-byte", "unsafe at 20", [FRAG(21, 9, 8), raw("kind 192", "c0"), fragment("aabb")]),
      P("piece-unsafe-in-the-fragment", "piece 0 20-22", [FRAG(20, 9, 8), fragment("c002")]))

group("fragments", "piece_ends", "EOL and counts on a piece.",
      P("piece-eol", "piece 0 24-26", [FRAG(24, 9, 8), EOL, raw("zeros", "000000"), fragment("aabb")]),
      P("piece-eol-and-bytes", "tail at 21", [FRAG(24, 9, 8), EOL, raw("bytes that are not zero", "c00600"), fragment("aabb")]),
      P("piece-eol-behind-malformed", "malformed at 20", [FRAG(23, 9, 8), raw("kind 9, length byte 0", "0900"), EOL, fragment("aabb")]),
      P("frag-and-31", "piece 0 82-84", [FRAG(82, 9, 8), many(31), fragment("aabb")]),
      P("frag-and-32", "crowded at 82", [FRAG(84, 9, 8), many(32), fragment("aabb")]),
      P("frag-and-31-eol", "piece 0 85-87", [FRAG(85, 9, 8), many(31), EOL, raw("zeros", "0000"), fragment("aabb")]),
      P("frag-and-31-eol-and-option", "tail at 83", [FRAG(85, 9, 8), many(31), EOL, many(1), fragment("aabb")]),
      P("frag-and-32-eol-and-bytes", "crowded at 82", [FRAG(86, 9, 8), many(32), EOL, raw("a byte", "01"), fragment("aabb")]))

group("fragments", "piece_tails", "Bytes behind EOL on a piece count up to Frag. Start; one that is not zero gives tail, and no piece.",
      P("piece-eol-right-before-the-start", "piece 0 21-24", [FRAG(21, 9, 8), EOL, fragment("aabbcc")]),
      P("piece-eol-zero-start", "piece 0 22-24", [FRAG(22, 9, 8), EOL, raw("a zero", "00"), fragment("aabb")]),
      P("piece-eol-byte-start", "tail at 21", [FRAG(22, 9, 8), EOL, raw("a byte", "01"), fragment("aabb")]),
      P("piece-eol-last-byte-before-the-start", "tail at 30", [FRAG(31, 9, 8), EOL, bad_fill(10, 9, 128), fragment("aabb")]),
      P("piece-eol-last-byte-behind-the-start", "piece 0 30-33", [FRAG(30, 9, 8), EOL, bad_fill(10, 9, 128), fragment("aabb")]),
      P("piece-eol-and-long-zeros", "piece 0 321-323", [FRAG(321, 9, 8), EOL, raw("300 zeros", "00" * 300), fragment("aabb")]),
      P("piece-eol-byte-in-long-zeros", "tail at 171", [FRAG(321, 9, 8), EOL, bad_fill(300, 150, 64), fragment("aabb")]),
      P("piece-eol-no-bytes-behind-the-start", "tail at 21", [FRAG(22, 9, 8), EOL, raw("a byte", "01")]),
      P("last-piece-eol-right-before-the-start", "piece 0 23-25 last 2", [FRAG(23, 9, 8, 10), EOL, fragment("aabb")]),
      P("last-piece-eol-byte-start", "tail at 23", [FRAG(24, 9, 8, 10), EOL, raw("a byte", "01"), fragment("aabb")]))

group("fragments", "more_piece_tails", "Tail on a piece beside other options and faults.",
      P("piece-option-eol-zero", "piece 0 26-28", [FRAG(26, 9, 8), MDS(1500), EOL, raw("a zero", "00"), fragment("aabb")]),
      P("piece-option-eol-byte", "tail at 25", [FRAG(26, 9, 8), MDS(1500), EOL, raw("a byte", "01"), fragment("aabb")]),
      P("piece-nop-eol-unsafe", "tail at 23", [NOP, FRAG(25, 9, 8), NOP, EOL, K(192), fragment("aabb")], note="Not unsafe: the walk has ended."),
      P("piece-malformed-eol-byte", "malformed at 20",
        [FRAG(24, 9, 8), raw("kind 9, length byte 1", "0901"), EOL, raw("a byte", "01"), fragment("aabb")]),
      P("piece-unsafe-eol-byte", "unsafe at 20", [FRAG(24, 9, 8), K(192), EOL, raw("a byte", "01"), fragment("aabb")]),
      P("frag-offset-7-eol-byte", "malformed at 10", [FRAG(22, 9, 7), EOL, raw("a byte", "01"), fragment("aabb")]),
      P("piece-no-sums-eol-byte", "tail at 21", [FRAG(22, 9, 8), EOL, raw("a byte", "01"), fragment("aabb")], udp=0, ocs=0))

group("fragments", "piece_offsets", "Where a fault on a piece is met: up to Frag. Start, behind FRAG, options and NOPs.",
      P("piece-malformed-behind-options", "malformed at 33",
        [NOP, FRAG(37, 9, 8), MDS(1500), NOP, MRDS(1, 2), NOP, NOP, raw("kind 9 of 5 bytes across Frag. Start", "0905aabb"), fragment("0102")]),
      P("piece-last-malformed-behind-option", "malformed at 28", [FRAG(29, 9, 8, 8), REQ(1), raw("kind 6", "06"), fragment("0600000001")]),
      P("piece-unsafe-behind-option", "unsafe at 27", [FRAG(29, 9, 8), REQ(1), NOP, K(192), fragment("aabb")]),
      P("piece-frag-behind-option", "malformed at 26", [FRAG(36, 9, 8), REQ(1), FRAG(36, 9, 8), fragment("aabb")]),
      P("piece-33rd-behind-nops", "crowded at 88", [NOP, FRAG(92, 9, 8), NOP, NOP, many(31), NOP, NOP, NOP, MDS(1), fragment("aabb")]),
      P("piece-tail-behind-option-and-zeros", "tail at 33", [FRAG(36, 9, 8), REQ(1), EOL, bad_fill(9, 6, 4), fragment("aabb")]),
      P("piece-nops-8-behind-option", "piece 0 39-41", [nops(3), FRAG(39, 9, 8), MDS(1500), NOP, K(9), nops(8), raw("NOP", "01"), fragment("aabb")],
        note="Frag. Start cuts the last NOP off.", strict="padded at 37"))

group("fragments", "piece_counts", "More counts on a piece.",
      P("frag-31-and-options-behind", "piece 0 82-86", [FRAG(82, 9, 8), many(31), many(2)], note="The last four bytes are the fragment."),
      P("frag-32nd-unsafe", "unsafe at 82", [FRAG(84, 9, 8), many(31), K(192), fragment("aabb")]),
      P("frag-32nd-malformed", "malformed at 82", [FRAG(84, 9, 8), many(31), raw("kind 9, length byte 1", "0901"), fragment("aabb")]),
      P("frag-31-and-nops", "piece 0 84-86", [FRAG(84, 9, 8), many(31), NOP, NOP, fragment("aabb")]))

group("fragments", "with_data", "FRAG in a datagram with user data.",
      P("fragdata-odd", "fragdata at 12", [FRAG(22, 9, 8), fragment("aabb")], A),
      P("fragdata-even", "fragdata at 12", [FRAG(22, 9, 8), fragment("aabb")], AB),
      P("fragdata-last", "fragdata at 12", [FRAG(24, 9, 8, 8), fragment("aabb")], AB),
      P("fragdata-behind-nop", "fragdata at 13", [NOP, FRAG(23, 9, 8), fragment("aabb")], AB),
      P("fragdata-before-malformed", "fragdata at 12", [FRAG(24, 9, 8), raw("kind 9, length byte 1", "0901"), fragment("aabb")], AB),
      P("fragdata-before-unsafe", "fragdata at 12", [FRAG(24, 9, 8), K(192), fragment("aabb")], AB),
      P("fragdata-before-tail", "fragdata at 12", [FRAG(24, 9, 8), EOL, raw("a byte", "01"), fragment("aabb")], AB),
      P("fragdata-before-tail-odd", "fragdata at 12", [FRAG(24, 9, 8), EOL, raw("a byte", "01"), fragment("aabb")], A),
      P("fragdata-twice", "fragdata at 12", [FRAG(32, 9, 8), FRAG(32, 9, 8)], AB),
      P("fragdata-no-sums", "fragdata at 12", [FRAG(22, 9, 8)], AB, udp=0, ocs=0))

group("fragments", "malformed_with_data", "A FRAG that fails its tests is malformed, with user data too.",
      P("data-frag-11", "malformed at 12", [FRAG(24, 9, 8, length=11), raw("two bytes", "0101"), fragment("aabb")], AB),
      P("data-frag-cut", "malformed at 12", [raw("FRAG without its last byte", "030a00160000000900")], AB),
      P("data-start-before", "malformed at 12", [FRAG(21, 9, 8), fragment("aabb")], AB),
      P("data-start-past", "malformed at 12", [FRAG(25, 9, 8), fragment("aabb")], AB),
      P("data-start-at-the-end", "fragdata at 12", [FRAG(24, 9, 8), fragment("aabb")], AB),
      P("data-offset-7", "malformed at 12", [FRAG(22, 9, 7), fragment("aabb")], AB),
      P("data-option-start-7", "malformed at 12", [FRAG(24, 9, 8, 7), fragment("aabb")], A),
      P("data-frag-behind-option", "malformed at 14", [K(9), FRAG(24, 9, 8), fragment("aabb")], AB))

group("fragments", "nops_before", "NOPs before FRAG: padded is met before FRAG and its tests.",
      *runs("nops-frag", lambda n: f"piece 0 {20 + n}-{22 + n}", lambda n: [nops(n), FRAG(20 + n, 9, 8), fragment("aabb")], sizes=(6, 7, 8, 9, 16)),
      *runs("nops-last-frag", lambda n: f"piece 0 {22 + n}-{24 + n} last 2", lambda n: [nops(n), FRAG(22 + n, 9, 8, 10), fragment("aabb")]),
      *runs("nops-frag-no-sums", lambda n: f"piece 0 {20 + n}-{22 + n}", lambda n: [nops(n), FRAG(20 + n, 9, 8), fragment("aabb")], udp=0, ocs=0),
      *runs("nops-frag-with-data", lambda n: f"fragdata at {12 + n}", lambda n: [nops(n), FRAG(22 + n, 9, 8), fragment("aabb")], AB),
      *runs("nops-frag-with-data-odd", lambda n: f"fragdata at {12 + n}", lambda n: [nops(n), FRAG(22 + n, 9, 8), fragment("aabb")], A),
      *runs("nops-last-frag-with-data", lambda n: f"fragdata at {12 + n}", lambda n: [nops(n), FRAG(24 + n, 9, 8, 8), fragment("aabb")], AB),
      *runs("nops-frag-offset-7", lambda n: f"malformed at {10 + n}", lambda n: [nops(n), FRAG(20 + n, 9, 7), fragment("aabb")]),
      *runs("nops-frag-start-before", lambda n: f"malformed at {10 + n}", lambda n: [nops(n), FRAG(19 + n, 9, 8), fragment("aabb")]),
      *runs("nops-frag-start-past", lambda n: f"malformed at {10 + n}", lambda n: [nops(n), FRAG(23 + n, 9, 8), fragment("aabb")]),
      *runs("nops-frag-11", lambda n: f"malformed at {10 + n}", lambda n: [nops(n), FRAG(20 + n, 9, 8, length=11), fragment("aabb")]),
      *runs("nops-last-frag-option-start-7", lambda n: f"malformed at {10 + n}", lambda n: [nops(n), FRAG(22 + n, 9, 8, 7), fragment("aabb")]),
      *runs("nops-frag-with-data-offset-7", lambda n: f"malformed at {12 + n}", lambda n: [nops(n), FRAG(22 + n, 9, 7), fragment("aabb")], AB),
      *runs("nops-frag-kind-byte", lambda n: f"malformed at {10 + n}", lambda n: [nops(n), raw("kind 3", "03")]))

group("fragments", "nops_on_a_piece", "NOPs on a piece: behind FRAG the count starts at 0, and ends at Frag. Start.",
      *runs("frag-nops", lambda n: f"piece 0 {20 + n}-{22 + n}", lambda n: [FRAG(20 + n, 9, 8), nops(n), fragment("aabb")], sizes=(6, 7, 8, 9, 16),
            at=20),
      *runs("last-frag-nops", lambda n: f"piece 0 {22 + n}-{24 + n} last 0", lambda n: [FRAG(22 + n, 9, 8, 8), nops(n), fragment("aabb")], at=22),
      *runs("frag-nops-no-bytes", lambda n: f"piece 0 {20 + n}-{20 + n}", lambda n: [FRAG(20 + n, 9, 8), nops(n)], at=20),
      *runs("frag-option-nops", lambda n: f"piece 0 {24 + n}-{26 + n}", lambda n: [FRAG(24 + n, 9, 8), MDS(1500), nops(n), fragment("aabb")], at=24),
      *runs("frag-nops-option", lambda n: f"piece 0 {24 + n}-{26 + n}", lambda n: [FRAG(24 + n, 9, 8), nops(n), MDS(1500), fragment("aabb")], at=20),
      *runs("frag-nops-eol", lambda n: f"piece 0 {22 + n}-{24 + n}", lambda n: [FRAG(22 + n, 9, 8), nops(n), EOL, raw("a zero", "00"), fragment("aabb")],
            at=20),
      *runs("nops-7-frag-nops", lambda n: f"piece 0 {27 + n}-{29 + n}", lambda n: [nops(7), FRAG(27 + n, 9, 8), nops(n), fragment("aabb")], at=27),
      *runs("frag-nops-unsafe", lambda n: f"unsafe at {20 + n}", lambda n: [FRAG(22 + n, 9, 8), nops(n), K(192), fragment("aabb")], at=20),
      *runs("frag-nops-malformed", lambda n: f"malformed at {20 + n}",
            lambda n: [FRAG(22 + n, 9, 8), nops(n), raw("kind 9, length byte 1", "0901"), fragment("aabb")], at=20),
      *runs("frag-nops-tail", lambda n: f"tail at {21 + n}", lambda n: [FRAG(22 + n, 9, 8), nops(n), EOL, raw("a byte", "01"), fragment("aabb")], at=20),
      *runs("frag-31-nops-option", lambda n: f"crowded at {82 + n}", lambda n: [FRAG(84 + n, 9, 8), many(31), nops(n), many(1), fragment("aabb")], at=82),
      P("nops-8-frag-nops-7", "piece 0 35-37", [nops(8), FRAG(35, 9, 8), nops(7), fragment("aabb")], strict="padded at 17"),
      P("frag-nops-as-the-fragment", "piece 0 20-29", [FRAG(20, 9, 8), nops(9)]),
      P("frag-nops-across-the-start-7", "piece 0 27-32", [FRAG(27, 9, 8), nops(12)]),
      P("frag-nops-across-the-start-8", "piece 0 28-32", [FRAG(28, 9, 8), nops(12)], strict="padded at 27"),
      P("frag-nops-as-a-body", "piece 0 31-33", [FRAG(31, 9, 8), K(9, "01" * 9), fragment("aabb")]),
      P("frag-nops-behind-eol", "tail at 21", [FRAG(30, 9, 8), EOL, nops(9), fragment("aabb")]),
      P("frag-unsafe-nops", "unsafe at 20", [FRAG(31, 9, 8), K(192), nops(9), fragment("aabb")]),
      P("fragdata-before-nops", "fragdata at 12", [FRAG(31, 9, 8), nops(9), fragment("aabb")], AB),
      P("fragdata-before-nops-odd", "fragdata at 12", [FRAG(31, 9, 8), nops(9), fragment("aabb")], A),
      P("frag-nops-around-31", "piece 0 313-315", [nops(7), FRAG(313, 9, 8), spaced(31), nops(7), fragment("aabb")]),
      P("frag-nops-long", "piece 0 1420-1422", [FRAG(1420, 9, 8), nops(1400), fragment("aabb")], strict="padded at 27"))

# ---------------------------------------------------------------- rereads
group("rereads", "refusals", "Refusals 6 and 5, and originals with no area.",
      O("nothing", "none", note="T 0."),
      O("nothing-r-1", "refused 6", r=1, note="T 0."),
      O("no-area-even", "none", data=AB),
      O("no-area-odd", "none", data=A),
      O("r-one-past", "refused 6", data=AB, r=3),
      O("r-past-an-area", "refused 6", [K(192)], AB, r=7),
      O("r-65535", "refused 6", data=AB, r=65535),
      O("reread-unsafe", "refused 5", [K(192)], AB, ocs=0))

group("rereads", "unsafe_kinds", "Refusal 5 is for the verdict unsafe alone.",
      O("reread-unsafe-summed", "refused 5", [K(192)], A),
      O("reread-unsafe-behind-option", "refused 5", [REQ(1), raw("kind 255", "ff")], AB, ocs=0),
      O("reread-unsafe-behind-malformed", "malformed at 12", [raw("kind 9, length byte 1", "0901"), K(192)], AB, ocs=0),
      O("reread-unsafe-behind-eol", "tail at 13", [EOL, K(192)], AB, ocs=0, note="The user data is delivered."),
      O("reread-unsafe-badsum", "badsum", [K(192)], AB, ocs=0x1234),
      O("reread-unsafe-bad-pad", "pad", [K(192)], A, ocs=0, pad=1),
      O("reread-33rd-unsafe", "refused 5", [many(32), K(192)], AB, ocs=0))

group("rereads", "starts", "The start of the area: the pad follows the parity of r.",
      O("reread-short-even", "short", data=AB, surplus=b"\x00"),
      O("reread-short-odd", "short", data=A, surplus=b"\x00\x00"),
      O("reread-short-bad-pad", "short", data=A, surplus=b"\x01\x00"),
      O("reread-pad", "pad", data=A, surplus=b"\x01\x00\x00"),
      O("reread-empty-list-even", "read 0", data=AB, surplus=b"\x00\x00"),
      O("reread-empty-list-odd", "read 0", data=A, surplus=b"\x00\x00\x00"),
      O("reread-r-0", "read 1", [REQ(300)]),
      O("reread-r-0-unsummed", "read 1", [REQ(300)], ocs=0))

group("rereads", "sums", "Option checksums in an original: 0 is unused, any other is tested.",
      O("reread-unused-even", "read 1", [REQ(300)], AB, ocs=0),
      O("reread-unused-odd", "read 1", [REQ(300)], A, ocs=0),
      O("reread-right-even", "read 1", [REQ(300)], AB),
      O("reread-right-odd", "read 1", [REQ(300)], A),
      O("reread-wrong-even", "badsum", [REQ(300)], AB, ocs=0xF8C4),
      O("reread-wrong-odd", "badsum", [REQ(300)], A, ocs=0xF8C5),
      O("reread-other-parity", "badsum", [REQ(300)], A, ocs=other_parity([REQ(300)]), note="Paired from the area's first byte."),
      O("reread-odd-end", "read 1", [MRDS(1500, 7)], A))

group("rereads", "frags", "FRAG in an original is malformed.",
      O("reread-frag", "malformed at 12", [FRAG(14, 7, 8), fragment("aabb")], AB, ocs=0),
      O("reread-frag-r-0", "malformed at 10", [FRAG(20, 7, 8), fragment("aabb")], ocs=0),
      O("reread-frag-behind-option", "malformed at 18", [REQ(1), FRAG(20, 7, 8)], AB, ocs=0),
      O("reread-frag-kind-byte", "malformed at 12", [raw("kind 3", "03")], AB, ocs=0),
      O("reread-frag-behind-nop", "malformed at 13", [NOP, FRAG(15, 7, 8)], AB, ocs=0),
      O("reread-frag-behind-eol", "tail at 13", [EOL, FRAG(15, 7, 8)], AB, ocs=0))

group("rereads", "lists", "Lists in an original.",
      O("reread-malformed", "malformed at 12", [raw("kind 6 of 5 bytes", "0605000000")], AB),
      O("reread-fill", "read 1 fill 3", [REQ(1), EOL, raw("zeros", "0000")], AB),
      O("reread-apc-right", "read 1 right", [APC(0x839206E3)], b"123456789"),
      O("reread-apc-wrong", "read 1 wrong", [APC(0x839206E2)], b"123456789"),
      O("reread-apc-two", "read 2 wrong", [APC(crc32c(AB)), APC(1)], AB),
      O("reread-32", "read 32", [many(32)], AB, ocs=0),
      O("reread-33", "crowded at 76", [many(33)], AB, ocs=0))

group("rereads", "tails", "Bytes behind EOL in an original, up to its end.",
      O("reread-tail-first", "tail at 19", [REQ(1), EOL, bad_fill(9, 0, 1)], AB),
      O("reread-tail-first-odd", "tail at 19", [REQ(1), EOL, bad_fill(9, 0, 1)], A),
      O("reread-tail-last", "tail at 27", [REQ(1), EOL, bad_fill(9, 8, 1)], AB),
      O("reread-tail-last-odd", "tail at 27", [REQ(1), EOL, bad_fill(9, 8, 1)], A),
      O("reread-tail-between", "tail at 163", [EOL, bad_fill(300, 150, 64)], AB, ocs=0),
      O("reread-tail-r-0", "tail at 11", [EOL, raw("a byte", "01")], ocs=0),
      O("reread-tail-with-apc", "tail at 27", [APC(0x839206E3), EOL, raw("a byte", "01")], b"123456789", note="The APC is not reported."),
      O("reread-fill-odd", "read 1 fill 10", [REQ(1), EOL, raw("zeros", "00" * 9)], A),
      O("reread-eol-last", "read 1 fill 1", [REQ(1), EOL], A))

group("rereads", "tail_order", "Tail and other faults in an original.",
      O("reread-32-eol-and-option", "tail at 77", [many(32), EOL, many(1)], AB, ocs=0),
      O("reread-33-eol-and-bytes", "crowded at 76", [many(33), EOL, raw("a byte", "01")], AB, ocs=0),
      O("reread-malformed-eol-and-bytes", "malformed at 12", [raw("kind 9, length byte 1", "0901"), EOL, raw("a byte", "01")], AB, ocs=0),
      O("reread-unsafe-eol-and-bytes", "refused 5", [K(192), EOL, raw("a byte", "01")], AB, ocs=0),
      O("reread-unsafe-behind-option-and-eol", "tail at 19", [REQ(1), EOL, K(192)], A, ocs=0),
      O("reread-frag-eol-and-bytes", "malformed at 12", [FRAG(14, 7, 8), EOL, raw("a byte", "01")], AB, ocs=0),
      O("reread-tail-badsum", "badsum", [REQ(1), EOL, raw("a byte", "01")], AB, ocs=0x1234))

group("rereads", "offsets", "Where options stand and faults are met in an original: 8 plus the place.",
      O("reread-behind-an-extended-option", "read 3", [long_option(255), K(10, "07"), REQ(1)], b"123456789"),
      O("reread-malformed-behind-option", "malformed at 18", [REQ(1), raw("kind 9", "09")], AB),
      O("reread-malformed-behind-nops-odd", "malformed at 15", [NOP, NOP, NOP, raw("kind 9, length byte 1", "0901")], A, ocs=0),
      O("reread-malformed-behind-an-extended-option", "malformed at 310", [long_option(300), raw("kind 9 of 5 bytes, cut", "0905aa")], ocs=0),
      O("reread-malformed-behind-long-data", "malformed at 1038", [MDS(1500), raw("kind 2", "02")], mixed(1023)),
      O("reread-frag-behind-options-and-nop", "malformed at 19", [K(9), MDS(1), NOP, FRAG(40, 7, 8)], A),
      O("reread-33rd-behind-other-options", "crowded at 81", [REQ(1), many(31), NOP, RES(1), K(9)], AB),
      O("reread-tail-behind-zeros", "tail at 25", [RES(1), EOL, EOL, EOL, raw("two bytes", "0101")], b"\x41" * 5),
      O("reread-nops-8-behind-options", "read 2", [nops(7), K(9), nops(2), K(9), nops(8)], A, ocs=0, strict="padded at 32"))

group("rereads", "nops", "Runs of NOPs in an original: padded is no refusal.",
      *runs("reread-nops-alone", "read 0", lambda n: [nops(n)], AB, sort=O),
      *runs("reread-nops-r-0", "read 0", lambda n: [nops(n)], ocs=0, sort=O),
      *runs("reread-nops-before", "read 1", lambda n: [nops(n), REQ(1)], AB, sort=O),
      *runs("reread-nops-before-odd", "read 1", lambda n: [nops(n), REQ(1)], A, sort=O),
      *runs("reread-nops-between", "read 2", lambda n: [REQ(1), nops(n), RES(2)], AB, ocs=0, sort=O, at=18),
      *runs("reread-nops-between-odd", "read 2", lambda n: [REQ(1), nops(n), RES(2)], A, ocs=0, sort=O, at=18),
      *runs("reread-nops-behind", "read 1", lambda n: [REQ(1), nops(n)], AB, sort=O, at=18),
      *runs("reread-nops-behind-odd", "read 1", lambda n: [REQ(1), nops(n)], A, sort=O, at=18),
      *runs("reread-nops-before-eol", "read 1 fill 2", lambda n: [REQ(1), nops(n), EOL, raw("a zero", "00")], A, sort=O, at=18),
      *runs("reread-nops-with-apc", "read 1 right", lambda n: [nops(n), APC(0x839206E3)], b"123456789", sort=O),
      *runs("reread-nops-unsafe", "refused 5", lambda n: [nops(n), K(192)], AB, ocs=0, note="Padded is delivered.", sort=O),
      *runs("reread-nops-frag", lambda n: f"malformed at {12 + n}", lambda n: [nops(n), FRAG(40, 7, 8)], AB, ocs=0, sort=O),
      *runs("reread-nops-malformed", lambda n: f"malformed at {12 + n}", lambda n: [nops(n), raw("kind 9, length byte 1", "0901")], A, sort=O),
      *runs("reread-nops-tail", lambda n: f"tail at {13 + n}", lambda n: [nops(n), EOL, raw("a byte", "01")], AB, sort=O),
      *runs("reread-nops-before-the-33rd", lambda n: f"crowded at {76 + n}", lambda n: [many(32), nops(n), many(1)], AB, sort=O, at=76),
      *runs("reread-nops-long", "read 1", lambda n: [nops(n), REQ(1)], AB, sizes=(64, 1400), sort=O),
      O("reread-nops-7-option-7", "read 1", [nops(7), REQ(1), nops(7)], AB),
      O("reread-nops-as-a-body", "read 1", [K(9, "01" * 9)], AB),
      O("reread-nops-behind-eol", "tail at 13", [EOL, nops(9)], A),
      O("reread-unsafe-before-nops", "refused 5", [K(192), nops(9)], AB),
      O("reread-33-before-nops", "crowded at 76", [many(33), nops(9)], AB),
      O("reread-nops-badsum", "badsum", [nops(9)], AB, ocs=0x1234),
      O("reread-nops-bad-pad", "pad", [nops(9)], A, pad=1),
      O("reread-nops-r-past", "refused 6", [nops(9)], AB, r=14))

group("rereads", "largest", "The largest original.",
      O("largest-original", "none", r=65507, fill=(0xA5, 65507)),
      O("largest-original-odd", "short", r=65505, fill=(0xA5, 65507)),
      O("largest-original-list", "read 1", [raw("kind 9 of 65,505 bytes", "09ffffe1")], fill=(0xA5, 65507)),
      O("largest-original-fill", "read 1 fill 65499", [REQ(1)], ocs=0, fill=(0, 65507)),
      O("largest-original-tail", "tail at 17", [REQ(1), EOL], ocs=0, fill=(0xA5, 65507)),
      O("largest-original-nops", "read 0", [], ocs=0, fill=(1, 65507), strict="padded at 17"),
      O("largest-original-nops-as-a-body", "read 1", [nops(7), raw("kind 9 of 65,498 bytes", "09ffffda")], ocs=0, fill=(1, 65507)),
      O("largest-original-r-past", "refused 6", r=65508, fill=(0, 65507)))

group("rereads", "too_long", "One byte more: 2 comes before 6 and 5.",
      O("original-one-more", "refused 2", r=0, fill=(0, 65508)),
      O("original-one-more-r-past", "refused 2", r=65509, fill=(0, 65508)),
      O("original-one-more-unsafe", "refused 2", [raw("kind 192", "c0")], ocs=0, r=0, fill=(0, 65508)))

# ---------------------------------------------------------------- walks
HEAD = Part("L 8, no checksums", PORTS + n(8, 2) + bytes(4))
LIST = [HEAD, REQ(300), NOP, K(9), FRAG(29, 7, 8), MDS(1500), EOL, RES(2)]
ALL = [(6, 10), (9, 17), (3, 19), (4, 29)]

group("walks", "ranges", "REQ at 10, a NOP, kind 9 at 17, FRAG at 19, MDS at 29, EOL at 33, RES from 34 to 40.",
      W("walk-all", ALL, LIST, (10, 40), note="FRAG has the form of an option."),
      W("walk-to-eol", ALL, LIST, (10, 34)),
      W("walk-before-eol", ALL, LIST, (10, 33)),
      W("walk-from-nop", ALL[1:], LIST, (16, 40)),
      W("walk-from-eol", [], LIST, (33, 40)),
      W("walk-behind-eol", [(7, 34)], LIST, (34, 40)),
      W("walk-one", ALL[:1], LIST, (10, 16)),
      W("walk-one-and-nop", ALL[:1], LIST, (10, 17)),
      W("walk-cut-option", [], LIST, (10, 15)),
      W("walk-cut-second", ALL[:1], LIST, (10, 18)),
      W("walk-cut-frag", ALL[:2], LIST, (10, 28)),
      W("walk-cut-header", ALL[:3], LIST, (10, 30)),
      W("walk-from-a-field", [], LIST, (12, 40), note="A byte 00 of the token: EOL."),
      W("walk-from-a-fields-end", [], LIST, (15, 40), note="Kind 44 with length byte 1."),
      W("walk-from-a-length-byte", [], LIST, (11, 40), note="Kind 6 with length byte 0."),
      W("walk-from-the-header", [], LIST, (0, 40), note="Kind 4 with length byte d2."),
      W("walk-empty", [], LIST, (10, 10)),
      W("walk-empty-at-the-end", [], LIST, (40, 40)),
      W("walk-nothing", [], [], (0, 0)))

group("walks", "forged", "Ranges and verdicts that no reader gives with them.",
      W("walk-turned-round", [], LIST, (16, 10)),
      W("walk-turned-round-by-one", [], LIST, (11, 10)),
      W("walk-past-the-end", [], LIST, (10, 41)),
      W("walk-far-past-the-end", [], LIST, (10, 2**64 - 1)),
      W("walk-from-past-the-end", [], LIST, (41, 41)),
      W("walk-from-far-past-the-end", [], LIST, (2**64 - 1, 2**64 - 1)),
      W("walk-from-far-to-nothing", [], LIST, (2**64 - 1, 0)),
      W("walk-past-nothing", [], [], (0, 1)),
      *(W(f"walk-verdict-{verdict}", [], LIST, (10, 40), verdict) for verdict in ("none", "malformed", "tail", "padded")))

group("walks", "kinds", "What has the form of an option, and what ends a walk.",
      W("walk-every-fixed-kind", [(2, 0), (4, 6), (5, 10), (6, 15), (7, 21), (8, 27), (3, 37), (3, 47)],
        [APC(1), MDS(2), MRDS(3, 4), REQ(5), RES(6), TIME(7, 8), FRAG(0, 0, 0), FRAG(0, 0, 0, 0)], (0, 59),
        note="FRAG's fields are not looked at."),
      W("walk-40", [(9, 2 * i) for i in range(40)], [many(40)], (0, 80), note="No 33rd is one too many."),
      W("walk-to-unsafe", [(6, 0)], [REQ(1), K(192), MDS(2)], (0, 12)),
      W("walk-behind-unsafe", [(4, 8)], [REQ(1), K(192), MDS(2)], (8, 12)),
      W("walk-to-malformed", [(6, 0)], [REQ(1), raw("MDS of 5 bytes", "0405000000"), K(9)], (0, 13)),
      W("walk-frag-11", [], [FRAG(22, 7, 8, length=11), NOP], (0, 11)),
      W("walk-length-byte-0", [], [raw("kind 9, length byte 0", "0900"), NOP], (0, 3)),
      W("walk-nops", [], [nops(70)], (0, 70)),
      W("walk-behind-nops", [(9, 70)], [nops(70), K(9)], (0, 72)),
      W("walk-extended", [(9, 1), (10, 256)], [NOP, long_option(255), K(10, "07")], (0, 259)),
      W("walk-extended-cut", [], [NOP, long_option(255), K(10, "07")], (0, 255)),
      W("walk-extended-254", [], [raw("kind 9, extended length 254", "09ff00fe")], (0, 254), fill=(1, 254)),
      W("walk-last-kind-byte", [], [raw("kind 9", "09")], (0, 1)),
      W("walk-largest", [(9, 0)], [raw("kind 9 of 65,535 bytes", "09ffffff")], (0, 65535), fill=(0xA5, 65536)),
      W("walk-largest-cut", [], [raw("kind 9 of 65,535 bytes", "09ffffff")], (0, 65534), fill=(0xA5, 65536)))
