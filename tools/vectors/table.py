"""A table in plain Python, from document 01 with R-4 and R-8 of document 02 alone, beside the plain book of each client.

    table.py calls             what has to come of rust/scripts/lists/calls.txt, its calls.expected
    table.py count             how often each answer stands in that
    table.py random N PROGRAM  N random lists, `PROGRAM calls` against this table
"""
import os
import re
import subprocess
import sys
from collections import Counter
from functools import lru_cache

from reader import crc32c

HERE = os.path.dirname(os.path.abspath(__file__))
ROOT = os.path.join(HERE, "..", "..")
PLACE, PLACES, PIECES = 8192, 8, 64  # as many places as the largest plan has
CLIENTS, LIFETIME, OFFERED = 12, 120000, 10**15
RECORDS, STORE = CLIENTS + 1, (CLIENTS + 1) * PLACES * PLACE + 1
UNTOUCHED, BLANK = 0x5A, 0xA5
NOWHERE = ((0, 0, 0, 0), (0, 0, 0, 0), 0, 0)  # addresses and ports
FIGURES = ("held", "delivered", "expired", "clashed", "repeated", "turned")


# ---- document 01's record, record test and calls

class Piece:
    def __init__(self):
        self.place = self.length = self.r = self.last = 0

    def end(self):
        return self.place + self.length

    def fresh(self):
        return not (self.place or self.length or self.r or self.last)


class Assembly:
    def __init__(self):
        self.flow, self.identification, self.opened, self.count = NOWHERE, 0, 0, 0
        self.slots = [Piece() for _ in range(PIECES)]

    def pieces(self):
        return self.slots[:self.count]

    def key(self):
        return self.flow, self.identification

    def fresh(self):
        return self.flow == NOWHERE and not (self.identification or self.opened or self.count) and all(p.fresh() for p in self.slots)


class Record:
    def __init__(self, plan):
        self.plan = plan
        self.time = self.offered = 0
        self.figures = dict.fromkeys(FIGURES, 0)
        self.assemblies = [Assembly() for _ in range(PLACES)]


def size(pieces):
    return sum(p.length for p in pieces)


def overlap(p, q):
    return p.place < q.end() and q.place < p.end()


def same_end(p, q):
    """Same last mark (any number but 0 is one), same r; r counts only of a last piece."""
    return bool(p.last) == bool(q.last) and (not p.last or p.r == q.r)


def whole(pieces):
    """T and r, if the last piece is there and the pieces cover 0 to T."""
    for p in pieces:
        if p.last and set(range(p.end())) <= {i for q in pieces for i in range(q.place, q.end())}:
            return p.end(), p.r
    return None


def sound_assembly(a, time):
    pieces = a.pieces()
    lasts = [p for p in pieces if p.last]
    return (1 <= a.count <= PIECES
            and all(p.length and p.end() <= PLACE for p in pieces)
            and not any(overlap(p, q) for i, p in enumerate(pieces) for q in pieces[:i])
            and len(lasts) <= 1
            and all(p.end() <= end.end() for end in lasts for p in pieces)
            and all(end.r <= end.end() for end in lasts)
            and not whole(pieces)
            and a.opened <= time < a.opened + LIFETIME
            and all(p.fresh() for p in a.slots[a.count:]))


def sound(record):
    live = [a for a in record.assemblies if a.count]
    return (all(a.count or a.fresh() for a in record.assemblies)
            and not any(a.count for a in record.assemblies[record.plan:])
            and all(sound_assembly(a, record.time) for a in live)
            and len({a.key() for a in live}) == len(live)
            and record.figures["held"] == sum(size(a.pieces()) for a in live)
            and sum(record.figures.values()) == record.offered <= OFFERED)


def clashes(p, held):
    """Document 01's four causes."""
    return (any(overlap(p, q) for q in held)
            or p.last and any(q.last for q in held)
            or any(q.last and p.end() > q.end() for q in held)
            or p.last and any(q.end() > p.end() for q in held))


class Refused(Exception):
    pass


class Table:
    """`lent` is the plans of the records that a call gets, and the bytes of store."""

    def __init__(self):
        self.records = [Record(1) for _ in range(RECORDS)]
        self.store = bytearray([UNTOUCHED]) * STORE

    def client(self, lent, k):
        """20, 32, 21 and 22."""
        misfit(lent)
        if k >= len(lent[0]):
            raise Refused(21)
        if not sound(self.records[k]):
            raise Refused(22)
        return self.records[k]

    def reset(self, lent):
        misfit(lent)
        self.records[:len(lent[0])] = [Record(plan) for plan in lent[0]]
        return "taken"

    def clock(self, lent, k, time):
        record = self.client(lent, k)
        if time < record.time:
            raise Refused(27)
        elapse(record, time)
        return "taken"

    def bill(self, lent, k):
        record = self.client(lent, k)
        return " ".join(str(n) for n in [record.offered, *record.figures.values()])

    def piece(self, lent, k, time, key, p, data, room):
        """The answer, and what is delivered."""
        record = self.client(lent, k)
        tests(p, time, room, record.time, record.offered)
        elapse(record, time)
        record.offered += p.length
        figures = record.figures
        at = [i for i, a in enumerate(record.assemblies) if a.count and a.key() == key]
        if not at and sum(a.count > 0 for a in record.assemblies) >= record.plan:
            figures["turned"] += p.length
            raise Refused(29)
        at = at or [i for i, a in enumerate(record.assemblies) if not a.count]
        a, base = record.assemblies[at[0]], share(sum(lent[0][:k])) + at[0] * PLACE
        held = a.pieces()
        kept = self.store[base + p.place:base + p.end()]
        if any((p.place, p.length) == (q.place, q.length) and same_end(p, q) for q in held) and kept == data:
            figures["repeated"] += p.length
            return "repeated", None
        if clashes(p, held):
            figures["held"] -= size(held)
            figures["clashed"] += size(held) + p.length
            record.assemblies[at[0]] = Assembly()
            return "clash", None
        if a.count == PIECES:
            figures["turned"] += p.length
            raise Refused(30)
        if not a.count:
            (a.flow, a.identification), a.opened = key, time
        a.slots[a.count] = p
        a.count += 1
        self.store[base + p.place:base + p.end()] = data
        figures["held"] += p.length
        done = whole(a.pieces())
        if not done:
            return "stored", None
        figures["held"] -= size(a.pieces())
        figures["delivered"] += size(a.pieces())
        record.assemblies[at[0]] = Assembly()
        return "delivered %d %d" % done, bytes(self.store[base:base + done[0]])


def share(plan):
    return plan * PLACE


def misfit(lent):
    """20 for the count, 32, 20 for the store."""
    plans, store = lent
    for number, cause in ((20, not 1 <= len(plans) <= CLIENTS), (32, not all(1 <= plan <= PLACES for plan in plans)),
                          (20, store != sum(share(plan) for plan in plans))):
        if cause:
            raise Refused(number)


def fits(lent):
    try:
        misfit(lent)
    except Refused:
        return False
    return True


def tests(p, time, room, last_time, offered):
    """23 to 28."""
    for number, cause in ((23, room < PLACE), (24, p.length == 0), (25, p.end() > PLACE), (26, p.last and p.r > p.end()),
                          (27, time < last_time), (28, offered + p.length > OFFERED)):
        if cause:
            raise Refused(number)


def elapse(record, time):
    record.time = time
    for i, a in enumerate(record.assemblies):
        if a.count and time - a.opened >= LIFETIME:
            record.figures["held"] -= size(a.pieces())
            record.figures["expired"] += size(a.pieces())
            record.assemblies[i] = Assembly()


# ---- document 01's plain book of one client: no places, no store

class Book:
    def __init__(self, plan):
        self.plan = plan
        self.time = self.offered = 0
        self.figures = dict.fromkeys(FIGURES[1:], 0)
        self.open = []  # (key, time, piece, bytes)

    def until(self, time):
        if time < self.time:
            raise Refused(27)
        self.time = time
        first = {}
        for key, when, _, _ in self.open:
            first.setdefault(key, when)
        old = [o for o in self.open if time - first[o[0]] >= LIFETIME]
        self.out(old, "expired")

    def out(self, gone, figure):
        self.figures[figure] += sum(len(o[3]) for o in gone)
        self.open = [o for o in self.open if not any(o is g for g in gone)]

    def bill(self):
        held = sum(len(o[3]) for o in self.open)
        return " ".join(str(n) for n in [self.offered, held, *self.figures.values()])

    def piece(self, time, key, p, data, room):
        tests(p, time, room, self.time, self.offered)
        self.until(time)
        self.offered += len(data)
        mine = [o for o in self.open if o[0] == key]
        if not mine and len({o[0] for o in self.open}) >= self.plan:
            self.figures["turned"] += len(data)
            raise Refused(29)
        for _, _, q, held in mine:
            if (p.place, data) == (q.place, held) and same_end(p, q):
                self.figures["repeated"] += len(data)
                return "repeated", None
        if clashes(p, [o[2] for o in mine]):
            self.figures["clashed"] += len(data)
            self.out(mine, "clashed")
            return "clash", None
        if len(mine) == PIECES:
            self.figures["turned"] += len(data)
            raise Refused(30)
        self.open.append((key, time, p, data))
        mine.append(self.open[-1])
        done = whole([o[2] for o in mine])
        if not done:
            return "stored", None
        self.out(mine, "delivered")
        return "delivered %d %d" % done, b"".join(o[3] for o in sorted(mine, key=lambda o: o[2].place))


# ---- the program's lines

TABLE = []
for value in range(256):
    for _ in range(8):
        value = (value >> 1) ^ (0x82F63B78 if value & 1 else 0)
    TABLE.append(value)


def fed(state, data):
    """The CRC's state behind these bytes."""
    for byte in data:
        state = (state >> 8) ^ TABLE[(state ^ byte) & 255]
    return state


# A store is mostly blocks that were met before. What a block makes of a state is what it makes of 0, and beside it what as many zeros make of
# each bit of the state.
BLOCK = 1024
ZEROS = [fed(1 << bit, bytes(BLOCK)) for bit in range(32)]


@lru_cache(None)
def fed_block(block):
    return fed(0, block)


def crc(data):
    state, whole = 0xFFFFFFFF, len(data) // BLOCK * BLOCK
    for at in range(0, whole, BLOCK):
        behind = fed_block(bytes(data[at:at + BLOCK]))
        for bit in range(32):
            if state >> bit & 1:
                behind ^= ZEROS[bit]
        state = behind
    state = fed(state, data[whole:])
    return int.from_bytes((state ^ 0xFFFFFFFF).to_bytes(4, "little"), "big")


assert crc(b"123456789") == crc32c(b"123456789") == 0x839206E3
assert crc(bytes(range(251)) * 9) == crc32c(bytes(range(251)) * 9)


def pattern(place, length, seed):
    return bytes((at * 7 + at // 256 * 13 + seed) % 256 for at in ((place + i) % 65536 for i in range(length)))


def forge(record, field, place, slot, value):
    a = record.assemblies[place % PLACES]
    p = a.slots[slot % PIECES]
    if field == 0:
        record.time = value
    elif field == 19:
        record.plan = value
    elif field == 1:
        record.offered = value
    elif field < 8:
        record.figures[FIGURES[field - 2]] = value
    elif field in (9, 18):
        at = {9: 2, 18: 3}[field]
        a.flow = a.flow[:at] + (value % 2**16,) + a.flow[at + 1:]
    elif field in (16, 17):
        at = field - 16
        a.flow = a.flow[:at] + (tuple((value % 2**32).to_bytes(4, "big")),) + a.flow[at + 1:]
    elif field in (8, 10, 11):
        setattr(a, {8: "identification", 10: "opened", 11: "count"}[field], value % {8: 2**32, 10: 2**64, 11: 2**64}[field])
    else:
        setattr(p, ("place", "length", "r", "last")[field - 12], value % 2**16)


class Run:
    """Answers line by line; `books` has the book of each client whose history it is."""

    def __init__(self):
        self.table, self.count, self.store, self.room, self.books = Table(), 0, 0, 0, {}

    def lent(self):
        return tuple(record.plan for record in self.table.records[:self.count]), self.store

    def lend(self, numbers):
        """The plans of the records, the store and the out buffer."""
        *plans, self.store, self.room = numbers
        self.count = len(plans)
        for record, plan in zip(self.table.records, plans):
            record.plan = plan

    def booked(self, lent, k):
        """A call that 20 or 32 refuses may get any table; each other one gets that of the last set-up taken, or no book is kept."""
        if k not in self.books or not fits(lent):
            return None
        if lent != self.whole:
            self.books = {}
            return None
        return self.books[k]

    def agree(self, book, ask, answer):
        """The book of this client answers the same."""
        if book:
            try:
                said = ask(book)
            except Refused as why:
                said = why.args[0]
            assert said == answer, (said, answer)

    def ask(self, line):
        """What stands behind the line."""
        numbers = [int(x) for x in re.findall(r"\d+", line)]
        n = numbers + [0] * 8
        word, k = line[:1], n[0]
        table, lent = self.table, self.lent()
        if word == "t":
            self.lend(numbers)
        elif word == "f":
            if k < len(lent[0]):
                forge(table.records[k], *n[1:5])
                if n[1] != 19:
                    self.books.pop(k, None)
        elif word == "s":
            answer = table.reset(lent)
            self.whole, self.books = lent, {i: Book(plan) for i, plan in enumerate(lent[0])}
            return ": " + answer
        elif word == "c":
            return self.both(self.booked(lent, k), lambda: table.clock(lent, k, n[1]), lambda b: b.until(n[1]) or "taken")
        elif word == "b":
            return self.both(self.booked(lent, k), lambda: table.bill(lent, k), lambda b: b.bill())
        elif word in ("p", "l"):
            p = Piece()
            p.place, p.length, p.r, p.last = n[4], n[5], n[6] if word == "l" else 0, int(word == "l")
            flow = ((192, 0, 2, n[2] % 256), (198, 51, 100, n[2] // 256 % 256), n[2] // 2**16 % 2**16, n[2] // 2**32 % 2**16)
            key = flow, n[3] % 2**32
            data = pattern(n[4], n[5], (n[3] % 65536 * 31 + n[7] % 65536 * 101) % 256)
            said = self.both(self.booked(lent, k), lambda: table.piece(lent, k, n[1], key, p, data, self.room),
                             lambda b: b.piece(n[1], key, p, data, self.room))
            if isinstance(said, str):
                return said
            answer, out = said
            return ": " + answer + (" out %08x" % crc(out + bytes([BLANK]) * (self.room - len(out))) if out else "")
        return ""

    def both(self, book, ask, say):
        try:
            answer = ask()
        except Refused as why:
            self.agree(book, say, why.args[0])
            raise
        self.agree(book, say, answer)
        return ": " + answer if isinstance(answer, str) else answer

    def line(self, line):
        if line[:1] == "e":
            said = "store %08x\n" % crc(self.table.store)
            self.table.store = bytearray([UNTOUCHED]) * STORE
            return said
        try:
            return line + self.ask(line) + "\n"
        except Refused as why:
            return line + ": refused %d\n" % why.args[0]


def predict(script):
    run = Run()
    return "".join(run.line(line) for line in script.split("\n")[:-1])


def stored():
    with open(os.path.join(ROOT, "rust", "scripts", "lists", "calls.txt")) as file:
        return file.read()


def held_to_titles(text):
    """The first bill behind the title of a forged record is 22 exactly where the title says that it breaks a clause."""
    import lists
    lines = text.split("\n")
    for cases, refused in ((lists.BROKEN, True), (lists.PASSING, False)):
        for title, *_ in cases:
            bill = next(line for line in lines[lines.index("-- " + title):] if line.startswith("bill 1"))
            assert (": refused 22" in bill) == refused, (title, bill)
    return text


def count(text):
    answers = Counter()
    for line in text.split("\n"):
        said = line.split(": ")[1] if ": " in line and not line.startswith("--") else ""
        word = "refused " + said.split()[1] if said.startswith("refused") else said.split(" ")[0]
        answers["figures" if word.isdigit() else word] += bool(said)
    return answers


def main():
    if sys.argv[1] == "calls":
        sys.stdout.write(held_to_titles(predict(stored())))
    elif sys.argv[1] == "count":
        text = predict(stored())
        print(text.count("\nstore "), "lists,", sum(count(text).values()), "calls")
        for said, n in sorted(count(text).items()):
            if n:
                print(said, n)
    else:
        import lists
        seen = Counter()
        for i in range(int(sys.argv[2])):
            script = lists.random_list(i)
            want = predict(script)
            got = subprocess.run([sys.argv[3], "calls"], input=script.encode(), stdout=subprocess.PIPE).stdout.decode()
            seen += count(want)
            if got != want:
                print("differs in list", i, [pair for pair in zip(want.split("\n"), got.split("\n")) if pair[0] != pair[1]][:3])
                sys.exit(1)
        print(sys.argv[2], "lists agree:", dict(sorted(seen.items())))


if __name__ == "__main__":
    main()
