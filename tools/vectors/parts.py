"""Options and packets as labelled parts, with checksums worked out by reader.py."""
import reader

SOURCE = bytes([192, 0, 2, 1])
DESTINATION = bytes([198, 51, 100, 7])
PORTS = bytes.fromhex("04d2162e")


class Part:
    def __init__(self, label, data):
        self.label, self.data = label, bytes(data)


def n(value, size):
    return value.to_bytes(size, "big")


def raw(label, text):
    return Part(label, bytes.fromhex(text))


EOL, NOP = Part("EOL", [0]), Part("NOP", [1])


def nops(count): return Part(f"{count} NOPs", [1] * count)


def APC(value): return Part(f"APC {value:08x}", b"\x02\x06" + n(value, 4))
def MDS(v): return Part(f"MDS {v}", b"\x04\x04" + n(v, 2))
def MRDS(v, k): return Part(f"MRDS {v} {k}", b"\x05\x05" + n(v, 2) + n(k, 1))
def REQ(v): return Part(f"REQ {v}", b"\x06\x06" + n(v, 4))
def RES(v): return Part(f"RES {v}", b"\x07\x06" + n(v, 4))
def TIME(a, b): return Part(f"TIME {a} {b}", b"\x08\x0a" + n(a, 4) + n(b, 4))


def K(kind, body=""):
    data = bytes.fromhex(body)
    return Part(f"kind {kind} of {len(data) + 2} bytes", bytes([kind, len(data) + 2]) + data)


def FRAG(start, ident, offset, option_start=None, length=None):
    data = n(start, 2) + n(ident, 4) + n(offset, 2)
    label = f"FRAG start {start} id {ident} offset {offset}"
    if option_start is not None:
        data += n(option_start, 2)
        label += f" option start {option_start}"
    if length is not None:
        label += f", length byte {length}"
    return Part(label, bytes([3, length or len(data) + 2]) + data)


def fragment(text):
    return Part(f"fragment {text}", bytes.fromhex(text))


def many(count):
    return [Part(f"{count} options of kind 9, 2 bytes each", b"\x09\x02" * count)]


def flat(options):
    return [p for o in options for p in (o if isinstance(o, list) else [o])]


SETTINGS = ("plain", "strict")


def wanted(plain, strict):
    """What each setting gives."""
    return dict(zip(SETTINGS, (plain, strict or plain)))


class Packet:
    """`udp` and `ocs` are "right" or the field's value; `size` is L where it is not that of the data. `want` is what plain reading gives,
    `strict` what strict reading gives where that is something else."""

    def __init__(self, name, want, options=None, data=b"", udp="right", ocs="right", pad=0, size=None, surplus=None,
                 note="", fill=None, addresses=None, whole=None, strict=None):
        self.name, self.want, self.note, self.addresses = name, wanted(want, strict), note, addresses
        self.fill = fill
        if whole is not None:
            self.parts = [Part("", whole)]
            return
        length = size if size is not None else 8 + len(data)
        parts = []
        if data:
            parts.append(Part("data " + shown(data), data))
        odd = (8 + len(data)) % 2
        if surplus is not None:
            if surplus:
                parts.append(Part("area " + surplus.hex(" "), surplus))
        elif options is not None:
            parts += area(flat(options), odd, ocs, pad, fill, 8 + len(data))
        body = data
        if size is not None and size > 8 + len(data):
            body = b"".join(p.data for p in parts)[:size - 8]
        if fill and size is not None and size > 8 + len(data):
            byte, total = fill
            body = body + bytes([byte]) * (size - 8 - len(body))
        head = PORTS + n(length, 2)
        right = reader.sent(reader.words(reader.pseudo(SOURCE, DESTINATION, length) + head + b"\0\0" + body))
        field = right if udp == "right" else udp
        label = f"L {length}, checksum {field:04x}"
        if field not in (right, 0):
            label += " for " + f"{right:04x}"
        self.parts = [Part(label, head + n(field, 2))] + parts

    def front(self):
        return b"".join(p.data for p in self.parts)

    def payload(self):
        b = self.front()
        if self.fill:
            byte, total = self.fill
            b += bytes([byte]) * (total - len(b))
        return b

    def answer(self, setting):
        source, destination = self.addresses or (SOURCE, DESTINATION)
        return reader.read(self.payload(), source, destination, setting == "strict")

    ways = SETTINGS

    def brief(self, setting):
        return reader.brief(self.answer(setting))

    def line(self, setting):
        return reader.line(f"{self.name} {setting}", self.answer(setting))


class Original:
    """A reassembled original: user data, then an area whose parity is that of 8 + r."""

    def __init__(self, name, want, options=None, data=b"", ocs="right", pad=0, surplus=None, r=None, note="", fill=None, strict=None):
        self.name, self.want, self.note, self.fill = name, wanted(want, strict), note, fill
        self.r = len(data) if r is None else r
        self.parts = []
        if data:
            self.parts.append(Part("data " + shown(data), data))
        if surplus is not None:
            self.parts.append(Part("area " + surplus.hex(" "), surplus))
        elif options is not None:
            self.parts += area(flat(options), len(data) % 2, ocs, pad, fill, len(data))

    front, payload = Packet.front, Packet.payload
    ways, brief, line = SETTINGS, Packet.brief, Packet.line

    def answer(self, setting):
        return reader.reread(self.payload(), self.r, setting == "strict")


class Walk:
    """Options one by one in `rest` of some bytes, taken for a packet's and for an original's, under any verdict. `want` has kind and index
    of each."""

    ways = ("packet", "original")

    def __init__(self, name, want, parts, rest, verdict="read", note="", fill=None):
        self.name, self.parts, self.rest, self.verdict, self.note, self.fill = name, flat(parts), rest, verdict, note, fill
        self.want = {way: stand([(kind, origin + at) for kind, at in want]) for way, origin in zip(self.ways, (0, 8))}

    front, payload = Packet.front, Packet.payload

    def options(self, way):
        if self.verdict != "read":
            return []
        return reader.steps(self.payload(), *self.rest, 8 if way == "original" else 0)

    def brief(self, way):
        return stand([option[:2] for option in self.options(way)])

    def line(self, way):
        return f"{self.name} {way}" + reader.option_words(self.options(way))


def stand(options):
    """Kinds and offsets in words."""
    return ", ".join(f"{kind} at {offset}" for kind, offset in options) or "nothing"


def shown(data):
    return data.hex(" ") if len(data) <= 8 else f"{len(data)} bytes of {data[:1].hex()}" if len(set(data)) == 1 else f"{len(data)} bytes"


def area(options, odd, ocs, pad, fill, before):
    body = b"".join(o.data for o in options)
    length = odd + 2 + len(body)
    whole = bytes([pad] * odd) + b"\0\0" + body
    if fill:
        byte, total = fill
        length = total - before
        whole += bytes([byte]) * (length - len(whole))
    right = reader.sent(length + reader.words(whole, bool(odd)))
    field = right if ocs == "right" else ocs
    label = f"OCS {field:04x}"
    if field not in (right, 0):
        label += f" for {right:04x}"
    parts = [Part(f"pad {pad:02x}", [pad])] if odd else []
    return parts + [Part(label, n(field, 2))] + options
