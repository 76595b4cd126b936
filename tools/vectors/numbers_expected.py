"""The vectors of numbers: CRC32c, checksums, seven-bit numbers. Published values stand here as such."""
import reader
from parts import n


class Record:
    """A record of a table: its bytes with a remark on them, and what it gives behind its name."""

    def __init__(self, name, remark, data, text):
        self.name, self.remark, self.data, self.text = name, remark, data, text


def crc(name, remark, data, published=None):
    value = reader.crc32c(data)
    assert published is None or value == published, name
    return Record(name, remark, data, f" {value:08x}")


def total(name, remark, running, odd, data, published=None):
    value = reader.fold(running + reader.words(data, odd))
    assert published is None or value == published, name
    return Record(name, remark, n(running, 2) + bytes([odd]) + data, f" {value:04x} field {reader.sent(value):04x}")


def prefixes(name, remark, running, data):
    """For each prefix a line: its length, its CRC, and the running sum with it at an even and at an odd offset."""
    text = ""
    for size in range(len(data) + 1):
        part = data[:size]
        even, odd = (reader.fold(running + reader.words(part, parity)) for parity in (False, True))
        text += f"\n{size} {reader.crc32c(part):08x} {even:04x} {odd:04x}"
    return Record("prefixes-" + name, remark, n(running, 2) + data, text)


def number(name, remark, text, want):
    data = bytes.fromhex(text)
    got = reader.decode(data, 0)
    said = "refused 0" if got is None else "value %d next %d" % got
    assert said == want, (name, said)
    return Record(name, remark, data, " " + said)


def words(remark, a, b):
    value = reader.fold(a + b)
    return Record("add-word", remark, n(a, 2) + n(b, 2), f" {a:04x} {b:04x} {value:04x} field {reader.sent(value):04x}")


def encoding(value, at):
    """An encoding into ten bytes ff from `at` on, and what is decoded there."""
    e, b = reader.encode(value), bytearray(b"\xff" * 10)
    said = "full"
    if at + len(e) <= 10:
        b[at:at + len(e)] = e
        said = f"next {at + len(e)}"
        assert reader.decode(b, at) == (value, at + len(e))
    back = reader.decode(b, at)
    told = f"refused {at}" if back is None else "value %d next %d" % back
    text = f" {value} at {at} length {len(e)} {said} bytes {bytes(b).hex()} {told}"
    return Record("encoding", f"{value} at {at}", n(value, 8) + n(at, 8), text)


assert reader.encode(300).hex() == "ac02"
PDU = bytes.fromhex("01c0000000000000000000000000000014000000000004000000001400000018280000000000000002000000" + "00000000")
RFC1071 = bytes.fromhex("0001f203f4f5f6f7")
MIXED = bytes((167 * i * i + 59 * i + 201) % 257 % 256 for i in range(40))
PAIRS = b"".join(n(word, 2) + n(0xFFFF - word, 2) for word in (0x0001, 0xFFFE, 0x00FF, 0xFF00, 0x8000, 0x7FFF, 0xABCD, 0x1234, 0xFFFF, 0x0000))

TABLES = [
    ("The published vectors of CRC32c: iSCSI's, the check value, the CRC of nothing.", [
        crc("crc32c-zeros", "32 bytes of 00", bytes(32), 0xAA36918A),
        crc("crc32c-ones", "32 bytes of ff", b"\xff" * 32, 0x43ABA862),
        crc("crc32c-rising", "00 to 1f", bytes(range(32)), 0x4E79DD46),
        crc("crc32c-falling", "1f to 00", bytes(range(31, -1, -1)), 0x5CDB3F11),
        crc("crc32c-command", "iSCSI's SCSI Read (10) Command PDU", PDU, 0x563A96D9),
        crc("crc32c-check", "123456789", b"123456789", 0x839206E3),
        crc("crc32c-nothing", "no bytes", b"", 0),
    ]),
    ("Checksums: the sum of a running sum and bytes, and the field that is sent for it.", [
        total("sum-rfc-1071", "RFC 1071's example", 0, 0, RFC1071, 0xDDF2),
        total("sum-rfc-1071-odd", "the same at an odd offset: the bytes exchanged", 0, 1, RFC1071, 0xF2DD),
        total("sum-one-byte", "01", 0, 0, b"\x01", 0x0100),
        total("sum-one-byte-odd", "01 at an odd offset", 0, 1, b"\x01", 0x0001),
        total("sum-three-bytes", "01 02 03", 0, 0, b"\x01\x02\x03", 0x0402),
        total("sum-three-bytes-odd", "01 02 03 at an odd offset", 0, 1, b"\x01\x02\x03", 0x0204),
        total("sum-two-bytes-odd", "01 02 at an odd offset", 0, 1, b"\x01\x02", 0x0201),
        total("sum-folded-twice", "ffff, then ff ff 00 01: 1ffff folds to 10000 and that to 1", 0xFFFF, 0, b"\xff\xff\x00\x01", 0x0001),
        total("sum-all-ones", "ffff, then ff ff", 0xFFFF, 0, b"\xff\xff", 0xFFFF),
        total("sum-running", "ddf2, then 22 0d: all ones", 0xDDF2, 0, b"\x22\x0d", 0xFFFF),
        total("sum-first-half", "the first half of RFC 1071's example", 0, 0, RFC1071[:4], 0xF204),
        total("sum-second-half", "the second half upon it", 0xF204, 0, RFC1071[4:], 0xDDF2),
    ]),
    ("The first 0 to 40 of some bytes: CRC32c, and a running sum with them at an even and at an odd offset.", [
        prefixes("mixed", "1234, then bytes of no pattern", 0x1234, MIXED),
        prefixes("ones", "1, then bytes of ff: every word carries", 1, b"\xff" * 40),
        prefixes("zeros", "0, then bytes of 00: the sum is 0, not all ones", 0, bytes(40)),
        prefixes("pairs", "0, then each word before its complement: all ones at every fourth byte", 0, PAIRS),
    ]),
    ("Two words added, and the field that is sent for the sum.", [
        words("0 and 0", 0, 0),
        words("all ones and 0", 0xFFFF, 0),
        words("all ones and 1: the carry comes back", 0xFFFF, 1),
        words("all ones twice", 0xFFFF, 0xFFFF),
        words("8000 twice", 0x8000, 0x8000),
        words("RFC 1071's sum and its complement", 0xDDF2, 0x220D),
    ]),
    ("Seven-bit numbers: the lowest group first, shortest form only, within 64 bits.", [
        number("number-0", "0", "00", "value 0 next 1"),
        number("number-127", "127", "7f", "value 127 next 1"),
        number("number-128", "128", "8001", "value 128 next 2"),
        number("number-300", "300, document 01's figure 1", "ac02", "value 300 next 2"),
        number("number-300-and-more", "300, then bytes that are not its own", "ac02ff80", "value 300 next 2"),
        number("number-16384", "16384", "808001", "value 16384 next 3"),
        number("number-2-32-6", "2^32 + 6 is not 6", "8680808010", "value 4294967302 next 5"),
        number("number-largest", "2^64 - 1", "ffffffffffffffffff01", "value 18446744073709551615 next 10"),
        number("number-64-bits", "2^63", "80808080808080808001", "value 9223372036854775808 next 10"),
        number("number-65-bits", "2^64", "80808080808080808002", "refused 0"),
        number("number-65-bits-and-6", "2^64 + 6", "86808080808080808002", "refused 0"),
        number("number-70-bits", "ten groups of ones", "ffffffffffffffffff7f", "refused 0"),
        number("number-71-bits", "2^70", "8080808080808080808001", "refused 0"),
        number("number-long-zero", "0 in two groups, document 01's figure 8", "8000", "refused 0"),
        number("number-long-1", "1 in three groups", "818000", "refused 0"),
        number("number-nothing", "no bytes", "", "refused 0"),
        number("number-cut-short", "a byte that says that another follows", "80", "refused 0"),
        number("number-cut-short-2", "two such bytes", "ffff", "refused 0"),
        number("number-eleven-80s", "eleven bytes 80", "80" * 11, "refused 0"),
    ]),
    ("Encodings at the limits of one, two, three, five and ten groups; then buffers with and without room.", [
        *(encoding(v, 0) for v in (0, 1, 127, 128, 300, 16383, 16384, 65531, 2**32 + 6, 2**63 - 1, 2**63, 2**64 - 1)),
        *(encoding(v, at) for v, at in ((300, 8), (300, 9), (0, 9), (0, 10), (0, 11), (2**64 - 1, 1), (0, 2**64 - 1))),
    ]),
]


def number_lines():
    return [f"{r.name}{r.text}" for _, records in TABLES for r in records]
