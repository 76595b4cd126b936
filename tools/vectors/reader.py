"""A reader of UDP payloads with RFC 9868 options, written from document 01, R-2, R-6 and R-7 of document 02 and the RFC alone."""

FIXED = {2: (6,), 3: (10, 12), 4: (4,), 5: (5,), 6: (6,), 7: (6,), 8: (10,)}


def words(data, odd=False):
    """The sum of the 16-bit words, the first byte at an even or odd offset, a missing last byte 0."""
    if odd:
        data = b"\0" + data
    if len(data) % 2:
        data = data + b"\0"
    return sum(int.from_bytes(data[i:i + 2], "big") for i in range(0, len(data), 2))


def fold(total):
    while total > 0xFFFF:
        total = (total & 0xFFFF) + (total >> 16)
    return total


def sent(total):
    """What a checksum field holds: the complement of the folded sum, 0 as FFFF."""
    return (~fold(total) & 0xFFFF) or 0xFFFF


def pseudo(source, destination, length):
    return source + destination + bytes([0, 17]) + length.to_bytes(2, "big")


def crc32c(data):
    """Bit by bit; the number whose big-endian bytes are iSCSI's."""
    crc = 0xFFFFFFFF
    for byte in data:
        for i in range(8):
            bit = (crc ^ (byte >> i)) & 1
            crc = (crc >> 1) ^ (0x82F63B78 if bit else 0)
    return int.from_bytes((crc ^ 0xFFFFFFFF).to_bytes(4, "little"), "big")


def encode(value):
    out = bytearray()
    while True:
        value, group = value >> 7, value & 127
        out.append(group | (128 if value else 0))
        if not value:
            return bytes(out)


def decode(data, at):
    """(value, next), or None: cut short, not the shortest form, or over 64 bits."""
    i = at
    while i < len(data) and data[i] & 128:
        i += 1
    if i >= len(data):
        return None
    groups = [b & 127 for b in data[at:i + 1]]
    value = sum(g << 7 * k for k, g in enumerate(groups))
    if len(groups) > 1 and groups[-1] == 0 or value >= 1 << 64:
        return None
    return value, i + 1


class Verdict(Exception):
    """A fault: its word, and the index of the byte where it is met."""

    def __init__(self, word, at):
        super().__init__(word)
        self.word, self.at = word, at


def header(b, at, end):
    """The whole length and header size of the option at `at`, whose kind has a length."""
    malformed = Verdict("malformed", at)
    if at + 2 > end:
        raise malformed
    size, whole = 2, b[at + 1]
    if whole == 255:
        if at + 4 > end:
            raise malformed
        size, whole = 4, b[at + 2] << 8 | b[at + 3]
        if whole < 255:
            raise malformed
    if whole < 2 or at + whole > end:
        raise malformed
    if b[at] in FIXED and whole not in FIXED[b[at]]:
        raise malformed
    return whole, size


def walk(b, at, frag_allowed, user_empty, strict):
    """Walks b[at:]. (the options as (kind, index, body), fill, piece)."""
    end, found, piece = len(b), [], None
    nops = 0
    while at < end:
        kind = b[at]
        nops = nops + 1 if kind == 1 else 0
        if strict and nops == 8:
            raise Verdict("padded", at)
        if kind == 0:
            for behind in range(at + 1, end):
                if b[behind]:
                    raise Verdict("tail", behind)
            return found, end - at, piece
        if kind == 1:
            at += 1
            continue
        if kind >= 192:
            raise Verdict("unsafe", at)
        if kind == 3 and (not frag_allowed or found):
            raise Verdict("malformed", at)
        whole, size = header(b, at, end)
        if kind == 3:
            start = int.from_bytes(b[at + 2:at + 4], "big")
            ident = int.from_bytes(b[at + 4:at + 8], "big")
            offset = int.from_bytes(b[at + 8:at + 10], "big")
            last = whole == 12
            rdos = int.from_bytes(b[at + 10:at + 12], "big") if last else 8
            if start < at + whole or start > len(b) or offset < 8 or rdos < 8:
                raise Verdict("malformed", at)
            if not user_empty:
                raise Verdict("fragdata", at)
            piece = dict(id=ident, place=offset - 8, start=start, end=len(b), last=int(last), options=rdos - 8)
            end = start
        if len(found) == 32:
            raise Verdict("crowded", at)
        found.append((kind, at, b[at + size:at + whole]))
        at += whole
    return found, 0, piece


def area(b, size, origin, udp_zero, frag_allowed, data, strict):
    """The verdict on b[size:], whose parity is that of origin + size, and what goes with it. An offset is origin plus the index."""
    quiet = dict(at=None, options=[], fill=0, apc="none", list=(0, 0), piece=None)
    surplus = b[size:]
    odd = (origin + size) % 2
    if not surplus:
        return "none", quiet
    if len(surplus) - odd < 2:
        return "short", quiet
    if odd and surplus[0] != 0:
        return "pad", quiet
    ocs = surplus[odd] << 8 | surplus[odd + 1]
    if ocs == 0 and not udp_zero:
        return "unsummed", quiet
    if ocs != 0 and fold(len(surplus) + words(surplus, bool(odd))) != 0xFFFF:
        return "badsum", quiet
    try:
        found, fill, piece = walk(b, size + odd + 2, frag_allowed, len(data) == 0, strict)
    except Verdict as v:
        return v.word, dict(quiet, at=origin + v.at)
    if piece:
        return "piece", dict(quiet, piece=piece)
    apcs = [body for kind, _, body in found if kind == 2]
    apc = "none" if not apcs else "right" if all(x == crc32c(data).to_bytes(4, "big") for x in apcs) else "wrong"
    return "read", dict(quiet, options=located(found, origin), fill=fill, apc=apc, list=(size + odd + 2, len(b)))


def located(found, origin):
    """Options with their offsets: of a packet's byte its index, of an original's 8 plus the place."""
    return [(kind, origin + at, body) for kind, at, body in found]


def steps(b, start, end, origin):
    """The options from `start` up to `end` one by one, as long as what stands there has the form of one: kind, offset, body."""
    found = []
    if end > len(b):
        return found
    while start < end:
        kind = b[start]
        if kind == 1:
            start += 1
            continue
        if kind == 0 or kind >= 192:
            break
        try:
            whole, size = header(b, start, end)
        except Verdict:
            break
        found.append((kind, start, b[start + size:start + whole]))
        start += whole
    return located(found, origin)


def read(b, source, destination, strict=False):
    """A refusal's number, or ((from, to), verdict, the rest)."""
    if len(b) < 8:
        return 1
    if len(b) > 65515:
        return 2
    size = b[4] << 8 | b[5]
    if size < 8 or size > len(b):
        return 3
    udp = b[6] << 8 | b[7]
    if udp and fold(words(pseudo(source, destination, size) + b[:size])) != 0xFFFF:
        return 4
    verdict, rest = area(b, size, 0, udp == 0, True, b[8:size], strict)
    return (8, size), verdict, rest


def reread(b, r, strict=False):
    if len(b) > 65507:
        return 2
    if r > len(b):
        return 6
    verdict, rest = area(b, r, 8, True, False, b[:r], strict)
    if verdict == "unsafe":
        return 5
    return (0, r), verdict, rest


def option_words(options):
    """Each option as ` kind KIND at OFFSET BODY`, a long body by its length and CRC32c."""
    text = ""
    for kind, offset, body in options:
        text += f" kind {kind} at {offset}"
        if len(body) > 16:
            text += f" {len(body)} bytes crc {crc32c(body):08x}"
        elif body:
            text += " " + body.hex()
    return text


def said(verdict, rest):
    """The verdict's word, with the offset if it is a fault of the walk."""
    return verdict if rest["at"] is None else f"{verdict} at {rest['at']}"


def line(name, answer):
    if isinstance(answer, int):
        return f"{name} refused {answer}"
    (a, z), verdict, rest = answer
    text = f"{name} user {a} {z} verdict {said(verdict, rest)} count {len(rest['options'])} fill {rest['fill']} apc {rest['apc']}"
    text += " list %d %d" % rest["list"]
    if rest["piece"]:
        text += "".join(f" {k} {v}" for k, v in rest["piece"].items())
    return text + option_words(rest["options"])


def brief(answer):
    """The answer in the short words of the tables in vectors.py."""
    if isinstance(answer, int):
        return f"refused {answer}"
    _, verdict, rest = answer
    if verdict == "read":
        text = f"read {len(rest['options'])}"
        if rest["fill"]:
            text += f" fill {rest['fill']}"
        if rest["apc"] != "none":
            text += f" {rest['apc']}"
        return text
    if verdict == "piece":
        p = rest["piece"]
        text = f"piece {p['place']} {p['start']}-{p['end']}"
        return text + f" last {p['options']}" if p["last"] else text
    return said(verdict, rest)
