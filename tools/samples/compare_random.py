#!/usr/bin/env python3
"""Compares the program with make_samples.py's reading of the papers on random datagrams that stay close to the rules.

Among 1,000 or more of them each verdict has to come, tail also in a datagram that FRAG leads, read and piece also with eight NOPs in a
row: the program is not strict; and each fault at four offsets or more, one of them behind an odd UDP length."""
import os, random, struct, subprocess, sys
from collections import Counter, defaultdict
from make_samples import SRC, DST, FIXED, area_of, expected, opt, udp

HERE = os.path.dirname(os.path.abspath(__file__))
PROGRAM = os.path.join(HERE, "..", "..", "target", "bin", "program_inspect")
COUNT = int(sys.argv[1]) if len(sys.argv) > 1 else 2000
VERDICTS = "none short pad unsummed badsum malformed unsafe fragdata crowded tail read piece".split()
FAULTS = "malformed unsafe fragdata crowded tail".split()
rng = random.Random(9868)


def some_bytes(n):
    return bytes(rng.randrange(256) for _ in range(n))


def ending():
    """EOL and a fill, mostly of zeros."""
    fill = bytearray(rng.choice([0, 1, 2, 3, 7, 8, 9, 40, 300]))
    if fill and rng.random() < 0.4:
        at = rng.choice([0, len(fill) - 1, rng.randrange(len(fill))])
        fill[at] = rng.choice([1, 3, 0x80, 0xC0])
    return b"\0" + bytes(fill)


def frag(at):
    """FRAG, and now and then the end of its list."""
    whole = rng.choice([10, 12] * 8 + [11])
    behind = ending() if rng.random() < 0.4 else b""
    start = at + whole + len(behind) + rng.choice([0] * 8 + [1, 4, 9, -1])
    fields = struct.pack(">HIH", start, rng.getrandbits(32), rng.choice([8, 9, 500] * 5 + [7, 0]))
    return opt(3, (fields + struct.pack(">H", rng.choice([8, 40] * 8 + [7])) + b"\0\0")[:whole - 2]) + behind


def one_option(at):
    k = rng.random()
    if k < 0.10:
        return b"\x01"
    if k < 0.12:
        return b"\x01" * rng.choice([6, 7, 8, 9, 40])
    if k < 0.13:
        return b"\0" + some_bytes(rng.randrange(4))
    if k < 0.14:
        return frag(at)
    if k < 0.15:
        return bytes([rng.randrange(192, 256)]) + some_bytes(rng.randrange(3))
    if k < 0.62:
        kind = rng.choice(list(FIXED))
        extra = rng.choice([0] * 40 + [1, -1])
        return opt(kind, some_bytes(FIXED[kind] - 2 + extra))
    if k < 0.63:
        return some_bytes(rng.randrange(1, 5))
    if k < 0.66:
        size = rng.choice([254] + [255, 256, 300] * 5)
        return bytes([rng.randrange(9, 192), 255]) + struct.pack(">H", size) + some_bytes(size - rng.choice([4] * 15 + [5]))
    return opt(rng.choice([9, 10, 127, 190, 191]), some_bytes(rng.choice([0, 0, 1, 2, 7, 252, 253])))


def datagram():
    user = some_bytes(rng.choice([0, 0, 0, 1, 2, 3, 32]))
    size = 8 + len(user)
    options = b""
    base = size + size % 2 + 2
    if rng.random() < 0.25:
        options = b"\x01" * rng.choice([0, 1, 2, 7, 8])
        options += frag(base + len(options))
    for _ in range(rng.choice([0, 1, 2, 3, 5, 8, 31, 32, 33, 34])):
        options += one_option(base + len(options)) if rng.random() < 0.5 else opt(rng.choice([4, 9, 191]), b"\x05\xdc")
    if rng.random() < 0.4:
        options += ending()
    ocs = None if rng.random() < 0.9 else rng.choice([0, 1, 0xFFFF])
    area = area_of(options, size=size, ocs=ocs)
    if rng.random() < 0.05:
        area = area[:rng.randrange(4)]
    if size % 2 and area and rng.random() < 0.05:
        area = b"\x01" + area[1:]
    checksum = None if rng.random() < 0.85 else rng.choice([0, 0, 0x1234])
    length = None if rng.random() < 0.97 else rng.choice([0, 7, size + len(area), size + len(area) + 1])
    return SRC + DST + udp(area, user=user, checksum=checksum, length=length)


seen, offsets = Counter(), defaultdict(set)
for i in range(COUNT):
    data = datagram()
    want = expected(data)
    got = subprocess.run([PROGRAM], input=data, stdout=subprocess.PIPE).stdout.decode("latin-1")
    word, _, at = (want.split("\n")[0] if want.startswith("refused") else want.split("\n")[1]).partition(" at ")
    seen[word] += 1
    if at:
        offsets[word].add(at)
        seen[word + ", odd L"] += data[13] % 2
    if word in ("verdict read", "verdict piece") and b"\x01" * 8 in data[18:]:
        seen[word + ", eight NOPs"] += 1
    if word == "verdict tail" and data[12:14] == b"\0\x08" and data[18:].lstrip(b"\x01")[:1] == b"\x03":
        seen["tail led by FRAG"] += 1
    if got != want:
        print("differs:", data.hex(), "\nwanted:", want, "\ngot:", got)
        sys.exit(1)
print(COUNT, "agree:", dict(seen))
wanted = ["verdict " + word for word in VERDICTS] + ["tail led by FRAG", "verdict read, eight NOPs", "verdict piece, eight NOPs"]
for word in FAULTS:
    wanted.append(f"verdict {word}, odd L")
    if len(offsets[f"verdict {word}"]) < 4:
        wanted.append(f"verdict {word} at four offsets")
missing = [name for name in wanted if not seen[name]]
if COUNT >= 1000 and missing:
    sys.exit("never came: " + ", ".join(missing))
