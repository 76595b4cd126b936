"""lists.py: the lists of calls that rust/scripts runs, as its lists/calls.txt has them. tools/vectors/table.py predicts the answers."""
import random
import sys
from itertools import permutations

from reader import crc32c

from table import CLIENTS, OFFERED as LIMIT, PIECES, PLACE as ORIGINAL, PLACES, share

MOST = 2**64 - 1
LINES = []
SHARE = share(4)  # where nothing is said of plans they are of 4

# The fields that `forge` can set.
(TIME, OFFERED, HELD, DELIVERED, EXPIRED, CLASHED, REPEATED, TURNED, IDENTIFICATION, PORT, OPENED, COUNT, PLACE, LENGTH, R, LAST, SOURCE,
 DESTINATION, DESTINATION_PORT, PLAN) = range(20)
FIELDS = 20


def say(text):
    LINES.append(text)


def table(plans, store=None, out=ORIGINAL):
    """The plans of the clients, or how many clients with a plan of 4."""
    plans = [4] * plans if isinstance(plans, int) else [*plans]
    store = sum(map(share, plans)) if store is None else store
    say(f"table of plans {' '.join(map(str, plans)) or 'none'}, store {store}, out {out}")


def begin(title, plans=1):
    """A list: its title, and a set-up."""
    say("-- " + title)
    table(plans)
    say("set up")


def end():
    say("end")


def piece(k, time, key, place, length, r=None, other=0, flow=0, last=False):
    text = f"{'last' if last else 'piece'} {k} at {time} key {flow}/{key} place {place} length {length}"
    if last or r is not None or other:
        text += f" r {place + length if r is None else r}"
    say(text + (f" other {other}" if other else ""))


def last(k, time, key, place, length, r=None, other=0, flow=0):
    piece(k, time, key, place, length, r, other, flow, True)


def clock(k, time):
    say(f"clock {k} at {time}")


def bill(k):
    say(f"bill {k}")


def forge(k, *fields):
    """Each field: number, value, and for those of an assembly or a piece the place and the slot."""
    for field, value, *where in fields:
        place, slot = (where + [0, 0])[:2]
        say(f"forge {k} field {field} place {place} slot {slot} value {value}")


# ---- document 01's figures

def figures():
    begin("figure 9")
    piece(0, 0, 1, 0, 8)
    last(0, 0, 1, 8, 4)
    bill(0)
    end()
    begin("figure 9, the other order")
    last(0, 0, 1, 8, 4, 9)
    piece(0, 0, 1, 0, 8)
    bill(0)
    end()
    begin("figure 10")
    piece(0, 0, 1, 0, 8)
    piece(0, 0, 1, 7, 2)
    bill(0)
    end()
    begin("figure 11")
    piece(0, 0, 1, 0, 8)
    clock(0, 119999)
    bill(0)
    clock(0, 120000)
    bill(0)
    end()
    begin("figure 11, by pieces")
    piece(0, 0, 1, 0, 8)
    piece(0, 119999, 2, 0, 5)
    bill(0)
    piece(0, 120000, 2, 5, 5)
    bill(0)
    end()
    begin("figure 12: a plan of 4")
    for key in range(1, 5):
        piece(0, key, key, 0, key)
    piece(0, 5, 5, 0, 10)
    bill(0)
    piece(0, 120000, 5, 0, 10)
    piece(0, 120001, 5, 0, 10)
    piece(0, 120001, 6, 0, 10)
    bill(0)
    end()
    begin("figure 13: place and length")
    for place, length in ((ORIGINAL - 1, 1), (ORIGINAL, 1), (0, ORIGINAL + 1), (1, ORIGINAL), (ORIGINAL + 1, 1), (MOST, 1),
                          (MOST, ORIGINAL), (2**32, 1)):
        piece(0, 0, 1, place, length)
    half = ORIGINAL // 2
    piece(0, 0, 2, 0, ORIGINAL)
    last(0, 0, 3, half, half, ORIGINAL)
    last(0, 0, 4, half, half + 1, ORIGINAL)
    bill(0)
    end()
    begin(f"figure 13: the {PIECES}th piece, and the {PIECES + 1}th")
    for i in range(PIECES + 1):
        piece(0, 0, 1, 2 * i, 1)
    last(0, 0, 1, 2 * PIECES + 8, 1)
    piece(0, 0, 1, 2 * PIECES - 2, 1)
    bill(0)
    piece(0, 0, 1, 2 * PIECES - 2, 2)
    bill(0)
    end()
    begin(f"the {PIECES}th piece delivers, the {PIECES + 1}th does not")
    for i in range(PIECES - 1):
        piece(0, 0, 1, i, 1)
    last(0, 0, 1, PIECES - 1, 1, 3)
    for i in range(PIECES):
        piece(0, 0, 2, i, 1)
    last(0, 0, 2, PIECES, 1, 3)
    piece(0, 0, 2, 9, 1)
    bill(0)
    end()
    begin(f"{PIECES} pieces from behind, {ORIGINAL:,} bytes")
    step = ORIGINAL // PIECES
    for i in reversed(range(PIECES)):
        piece(0, PIECES - 1 - i, 7, step * i, step, ORIGINAL - 96, last=i == PIECES - 1)
    bill(0)
    end()


# ---- refusals

def misfits():
    begin("20: count and store", CLIENTS)
    most, all_shares = CLIENTS, CLIENTS * SHARE
    piece(most - 1, 500, 1, 0, 8)
    for records, store in ((0, 0), (0, SHARE), (1, 0), (1, SHARE - 1), (1, SHARE + 1), (1, SHARE // 2), (2, SHARE), (1, 2 * SHARE),
                           (most, all_shares - 1), (most, all_shares + 1), (most, all_shares - SHARE), (most + 1, all_shares + SHARE),
                           (most + 1, all_shares)):
        table(records, store)
        say("set up")
        piece(0, 0, 1, 0, 8)
        clock(0, 0)
        bill(0)
    table(most)
    bill(most - 1)
    end()
    begin("21: no such client", CLIENTS)
    for k in (most, most + 1, MOST, most - 1):
        piece(k, 0, 1, 0, 8)
        clock(k, 0)
        bill(k)
    table(1)
    say("set up")
    for k in (1, 11, 0):
        piece(k, 0, 1, 0, 8)
        clock(k, 0)
        bill(k)
    end()


# Each breaks one clause of the record test. The record has time 200, place 0 with 0 to 8 and the last piece 16 to 20, place 1 with 0 to 5.
FORGED = [
    ("offered is one more", (OFFERED, 18)),
    ("held is one more, and offered", (HELD, 18), (OFFERED, 18)),
    ("held is one less, delivered one more", (HELD, 16), (DELIVERED, 1)),
    ("a figure counts nothing", (TURNED, 3)),
    ("figures that sum past 2^64", (EXPIRED, MOST), (CLASHED, 1)),
    ("all figures are the largest", *((f, MOST) for f in range(OFFERED, TURNED + 1))),
    ("offered is over the limit", (OFFERED, LIMIT + 1), (REPEATED, LIMIT - 16)),
    ("an unused place has an identification", (IDENTIFICATION, 7, 3)),
    ("an unused place has a port", (PORT, 7, 2)),
    ("an unused place has a time", (OPENED, 200, 2)),
    ("an unused place has a piece", (LENGTH, 1, 2, 0)),
    ("an unused slot has a place", (PLACE, 9, 0, PIECES - 1)),
    ("an unused slot is last", (LAST, 1, 1, 1)),
    ("an unused slot has an option start", (R, 1, 1, 2)),
    ("a live place has no count", (COUNT, 0, 1), (HELD, 12), (DELIVERED, 5)),
    (f"{PIECES + 1} pieces", (COUNT, PIECES + 1, 1)),
    ("255 pieces", (COUNT, 255, 0)),
    ("an empty piece", (COUNT, 2, 1), (PLACE, 9, 1, 1)),
    (f"a piece past {ORIGINAL:,}", (PLACE, ORIGINAL - 4, 1, 0)),
    ("a piece that ends past 65,536", (PLACE, 65535, 1, 0)),
    ("an overlap", (COUNT, 3, 0), (PLACE, 7, 0, 2), (LENGTH, 2, 0, 2), (HELD, 19), (OFFERED, 19)),
    ("two last pieces", (LAST, 1, 0, 0)),
    ("a piece past the end", (COUNT, 3, 0), (PLACE, 20, 0, 2), (LENGTH, 1, 0, 2), (HELD, 18), (OFFERED, 18)),
    ("an option start past the end", (R, 21, 0, 1)),
    ("whole", (PLACE, 8, 0, 1), (R, 8, 0, 1)),
    ("two equal keys", (IDENTIFICATION, 1, 1)),
    ("opened after the last time", (OPENED, 201, 1)),
    ("opened 120,000 ms before", (TIME, 120100)),
    ("opened 120,000 ms before, near 2^64", (TIME, MOST), (OPENED, MOST - 119999, 0), (OPENED, MOST - 120000, 1)),
]

# These pass it.
SOUND = [
    (f"{ORIGINAL:,} is reached", (PLACE, ORIGINAL - 5, 1, 0)),
    ("the option start of a piece that is not last", (R, 9, 0, 0)),
    ("an option start at the end", (R, 20, 0, 1)),
    ("opened 119,999 ms before", (TIME, 120099)),
    ("another port", (IDENTIFICATION, 1, 1), (PORT, 3, 1)),
    ("pieces that touch", (COUNT, 3, 0), (PLACE, 8, 0, 2), (LENGTH, 1, 0, 2), (HELD, 18), (OFFERED, 18)),
    ("offered is at the limit", (OFFERED, LIMIT), (REPEATED, LIMIT - 17)),
    ("near 2^64", (TIME, MOST), (OPENED, MOST - 119999, 0), (OPENED, MOST, 1)),
]


# The same of flows: 192.0.2.0 and 198.51.100.0 are those of flow 0, which both live places have.
FROM, TO = 0xC0000200, 0xC6336400
FORGED_FLOWS = [
    ("an unused place has a source address", (SOURCE, 1, 2)),
    ("an unused place has a destination address", (DESTINATION, 2**31, 3)),
    ("an unused place has a destination port", (DESTINATION_PORT, 65535, 2)),
    ("two equal keys, no part as it came", *((f, v, place) for place in (0, 1) for f, v in (
        (SOURCE, 7), (DESTINATION, 8), (PORT, 9), (DESTINATION_PORT, 10), (IDENTIFICATION, 11)))),
    ("two keys of zeros", *((f, 0, place) for place in (0, 1) for f in (SOURCE, DESTINATION, IDENTIFICATION))),
]
SOUND_FLOWS = [
    *((f"another source address, byte {i}", (IDENTIFICATION, 1, 1), (SOURCE, FROM ^ 1 << 24 - 8 * i, 1)) for i in range(4)),
    *((f"another destination address, byte {i}", (IDENTIFICATION, 1, 1), (DESTINATION, TO ^ 128 << 24 - 8 * i, 1)) for i in range(4)),
    ("another destination port", (IDENTIFICATION, 1, 1), (DESTINATION_PORT, 256, 1)),
    ("addresses exchanged", (IDENTIFICATION, 1, 1), (SOURCE, TO, 1), (DESTINATION, FROM, 1)),
    ("a live place with a key of zeros", (IDENTIFICATION, 0, 1), (SOURCE, 0, 1), (DESTINATION, 0, 1)),
]

# Counts whose lowest byte would pass.
FORGED_COUNTS = [
    ("257 pieces", (COUNT, 257, 1)),
    (f"{256 + PIECES} pieces", (COUNT, 256 + PIECES, 1)),
    ("2^32 + 1 pieces", (COUNT, 2**32 + 1, 1)),
    ("2^64 - 1 pieces", (COUNT, MOST, 0)),
    ("an unused place counts 256", (COUNT, 256, 2)),
    ("an unused place counts 2^56", (COUNT, 2**56, 3)),
]


def live(place):
    """Makes a place live, beside the two that are."""
    return (COUNT, 1, place), (LENGTH, 3, place), (IDENTIFICATION, 9, place), (OPENED, 200, place), (HELD, 20), (OFFERED, 20)


# Places at and past the plan, which is 4.
FORGED_PLACES = [
    *((f"place {place} is live", *live(place)) for place in range(4, PLACES)),
    *((f"place {place} is live, and all places of the plan", *live(place), *(f for at in (2, 3) for f in (
        (COUNT, 1, at), (LENGTH, 1, at), (IDENTIFICATION, 20 + at, at), (OPENED, 200, at))), (HELD, 22), (OFFERED, 22)) for place in (4, 7)),
    *((f"place {place} is live, with a key that is live", *live(place), (IDENTIFICATION, 1, place), (SOURCE, FROM, place), (DESTINATION, TO, place))
      for place in (4, 7)),
    ("place 4 is live, and no place of the plan", (COUNT, 0, 0), (COUNT, 0, 1), *live(4), (HELD, 3), (OFFERED, 3)),
    *((f"place {place}, past the plan and unused, has {words}", (field, value, place)) for place in (4, 7) for words, field, value in (
        ("an identification", IDENTIFICATION, 7), ("a port", PORT, 7), ("a destination port", DESTINATION_PORT, 1), ("a source address", SOURCE, 1),
        ("a destination address", DESTINATION, 1), ("a time", OPENED, 200), ("a piece", LENGTH, 1), ("an option start", R, 1), ("a last mark", LAST, 1))),
    *((f"place {place}, past the plan and unused, has a piece in its last slot", (PLACE, 1, place, PIECES - 1)) for place in (4, 7)),
]
SOUND_PLACES = [(f"place {place} is live", *live(place)) for place in (2, 3)]


def forged_marks(mark):
    """Any number but 0 marks a last piece."""
    return [
        (f"two last pieces, one marked {mark}", (LAST, mark, 0, 0)),
        (f"two last pieces, both marked {mark}", (LAST, mark, 0, 0), (LAST, mark, 0, 1)),
        (f"an unused slot is marked {mark}", (LAST, mark, 1, 1)),
        (f"an unused place is marked {mark}", (LAST, mark, 2, PIECES - 1)),
        (f"a piece past the end marked {mark}", (LAST, mark, 0, 1), (COUNT, 3, 0), (PLACE, 20, 0, 2), (LENGTH, 1, 0, 2), (HELD, 18), (OFFERED, 18)),
        (f"an option start past the end marked {mark}", (LAST, mark, 0, 1), (R, 21, 0, 1)),
        (f"whole, marked {mark}", (LAST, mark, 0, 1), (PLACE, 8, 0, 1), (R, 8, 0, 1)),
        (f"the first piece is the last, marked {mark}", (LAST, mark, 1, 0)),
    ]


def sound_marks(mark):
    return [
        (f"the last piece is marked {mark}", (LAST, mark, 0, 1)),
        (f"another piece is the last, marked {mark}", (LAST, 0, 0, 1), (PLACE, 30, 0, 0), (LAST, mark, 0, 0)),
    ]


# Live pieces (from, to, and END for the last one) whose lengths sum to the last one's end T, or nearly; what is offered then; and what stands
# in a slot behind them.
END = 1


def parts(n):
    """The longest original in n equal pieces."""
    step = ORIGINAL // n
    return [(step * i, step * i + step, END * (i == n - 1)) for i in range(n)]


QUARTER, STEP, ALL = ORIGINAL // 4, ORIGINAL // PIECES, parts(PIECES)
FORGED_SUMS = [
    *(("sum T, an overlap, 4 and 5 open: " + " ".join(f"{p[0]}-{p[1]}" for p in pieces), pieces, (4, 6))
      for pieces in permutations([(0, 4), (0, 2), (6, 8, END)])),
    ("sum T, one piece twice, 4 to 8 open", [(0, 4), (0, 4), (8, 12, END)], (4, 8)),
    ("sum T, one inside another, 6 and 7 open", [(0, 6), (2, 4), (8, 10, END)], (6, 8)),
    ("sum T, the last one overlaps, 2 and 3 open", [(0, 2), (4, 8), (6, 10, END)], (2, 4)),
    (f"sum T of {ORIGINAL:,}, an overlap, {2 * QUARTER:,} to {3 * QUARTER:,} open",
     [(0, 2 * QUARTER), (0, QUARTER), (3 * QUARTER, ORIGINAL, END)], (2 * QUARTER, 3 * QUARTER)),
    (f"sum T, {PIECES} pieces, the first one in the place of the second", [ALL[0], ALL[0], *ALL[2:]], (STEP, 2 * STEP)),
    (f"sum T, {PIECES} pieces from behind, one in the place of another", [*ALL[:1:-1], ALL[9], ALL[0]], (STEP, 2 * STEP)),
    ("sum T, one past the end, 4 and 5 open", [(0, 4), (10, 12), (6, 8, END)], (4, 6)),
    ("sum T, two last ones, 4 and 5 open", [(0, 4), (6, 8, END), (8, 10, END)], (4, 6)),
    ("sum T modulo 65,536, 4 and 5 open", [(0, 4), (0, 65535), (0, 3), (6, 8, END)], (4, 6)),
    ("sum T with an unused slot, 4 and 5 open", [(0, 4), (6, 8, END)], (4, 6), (0, 2)),
    ("sum T with an unused slot that fills the gap", [(0, 4), (6, 8, END)], (4, 6), (4, 6)),
    ("sum T with the last one in an unused slot", [(0, 4), (4, 6)], (4, 6), (6, 8, END)),
    ("sum T + 1, an overlap, 4 and 5 open", [(0, 4), (0, 3), (6, 8, END)], (4, 6)),
    ("sum T + 1, an overlap, all covered", [(0, 5), (4, 8, END)], (4, 6)),
    ("sum T - 1, an overlap, 4 and 5 open", [(0, 4), (3, 4), (6, 8, END)], (4, 6)),
    ("covered by one", [(0, 8, END)], (4, 6)),
    ("covered by two", [(0, 4), (4, 8, END)], (4, 6)),
    ("covered by two, the last one first", [(4, 8, END), (0, 4)], (4, 6)),
    ("covered by two and an empty one", [(0, 4), (2, 2), (4, 8, END)], (4, 6)),
    *((f"covered by {n}{words}", parts(n)[::way], (0, ORIGINAL // n)) for n in (16, PIECES) for words, way in (("", 1), (", from behind", -1))),
]
SOUND_SUMS = [
    ("no last one, 0 to 8 covered", [(0, 4), (4, 8)], (8, 9)),
    ("no last one, sum 8 before 10", [(0, 4), (6, 10)], (4, 6)),
    *((f"no last one, 0 to {ORIGINAL:,} covered by {n}", [(*p[:2], 0) for p in parts(n)], (0, ORIGINAL // n)) for n in (16, PIECES)),
    ("sum T - 1, the first byte open", [(4, 8, END), (1, 4)], (0, 1)),
    ("sum T - 1, a byte within open", [(0, 4), (5, 8, END)], (4, 5)),
    (f"sum T - 1, {PIECES - 1} pieces", [(0, 2 * STEP - 1), *ALL[2:]], (2 * STEP - 1, 2 * STEP)),
    (f"sum T - 1, {PIECES} pieces", [(0, STEP - 1), *ALL[1:]], (STEP - 1, STEP)),
]


def forged_pieces(pieces, *spare):
    """Makes these of a record with one piece at 0; held and offered are their bytes."""
    fields = [(COUNT, len(pieces))]
    for slot, (start, past, *end) in enumerate([*pieces, *spare]):
        fields += [field for field in ((PLACE, start, 0, slot), (LENGTH, past - start, 0, slot), (LAST, sum(end), 0, slot)) if field[1]]
    held = sum(p[1] - p[0] for p in pieces)
    return fields + [(HELD, held), (OFFERED, held)]


def forged_sums():
    """Bill, clock and piece on each, the piece of the same original and of another, beside the record of client 0."""
    begin("22: lengths that sum to the end", 2)
    for title, pieces, (start, past), *spare in FORGED_SUMS + SOUND_SUMS:
        say(f"-- {title}")
        say("set up")
        piece(1, 100, 1, 0, 8)
        forge(1, *forged_pieces(pieces, *spare))
        bill(1)
        clock(1, 100)
        piece(1, 100, 2, 0, 8)
        piece(1, 100, 1, start, past - start)
        last(1, 100, 1, 7, 1, 0)
        bill(1)
        piece(0, 0, 1, 0, 1)
    end()


# Orders in which pieces come.
ORDERS = (
    ("in order", range),
    ("from behind", lambda n: range(n)[::-1]),
    ("from both ends inwards", lambda n: [i // 2 if i % 2 == 0 else n - 1 - i // 2 for i in range(n)]),
    ("mixed", lambda n: sorted(range(n), key=lambda i: crc32c(bytes([n, i])))),
)


def moved(n):
    """Changes of one of n equal pieces that touch: words, its number, what its place and its length grow by, and whether that is sound."""
    far = n // 2 * (ORIGINAL // n)
    for i in (1, n // 2, n - 1):
        yield f"piece {i} has the last byte of the one before it too", i, -1, 1, False
        yield f"piece {i} stands a byte too far in front", i, -1, 0, False
        yield f"piece {i} stands where another one does", i, far if i < n // 2 else -far, 0, False
        yield f"the first byte of piece {i} is open", i, 1, -1, True
        yield f"the last byte of piece {i} is open", i, 0, -1, True


ORDERED = [(f"{n} pieces {words}: {change[0]}", change[4]) for n in (16, PIECES) for words, _ in ORDERS for change in moved(n)]


def forged_orders():
    """What a list holds counts, not the order in which it came: each change is made and taken back on one record."""
    for n in (16, PIECES):
        step = ORIGINAL // n
        for words, order in ORDERS:
            came = list(order(n))
            begin(f"22: {n} pieces, {words}, none of them last", 2)
            for i in came:
                piece(1, 100, 1, step * i, step)
            bill(1)
            for change, i, on, grown, _ in moved(n):
                say(f"-- {n} pieces {words}: {change}")
                slot = came.index(i)
                for place, length, held in ((step * i + on, step + grown, ORIGINAL + grown), (step * i, step, ORIGINAL)):
                    forge(1, (PLACE, place, 0, slot), (LENGTH, length, 0, slot), (HELD, held), (OFFERED, held))
                    bill(1)
            last(1, 100, 1, 0, 1)
            bill(1)
            end()


MARKS = (2, 255, 65535)
BROKEN = FORGED + FORGED_FLOWS + FORGED_COUNTS + FORGED_PLACES + [case for mark in MARKS for case in forged_marks(mark)] + FORGED_SUMS
BROKEN += [case for case in ORDERED if not case[1]]
PASSING = SOUND + SOUND_FLOWS + SOUND_PLACES + [case for mark in MARKS for case in sound_marks(mark)] + SOUND_SUMS
PASSING += [case for case in ORDERED if case[1]]


def tried(cases):
    """Each on a record of its own, beside that of client 0."""
    for title, *fields in cases:
        say(f"-- {title}")
        say("set up")
        piece(1, 100, 1, 0, 8)
        last(1, 150, 1, 16, 4, 17)
        piece(1, 200, 2, 0, 5)
        forge(1, *fields)
        bill(1)
        clock(1, 0)
        piece(1, 130000, 3, 0, 8)
        bill(1)
        piece(0, 0, 1, 0, 1)


def forged_fields():
    begin("22: forged flows", 3)
    tried(FORGED_FLOWS + SOUND_FLOWS)
    end()
    begin("22: forged counts", 3)
    tried(FORGED_COUNTS)
    end()
    for mark in MARKS:
        begin(f"22: last marks of {mark}", 3)
        tried(forged_marks(mark) + sound_marks(mark))
        end()
    begin("a forged flow is the key")
    for field, value, flow in ((SOURCE, FROM + 1, 1), (DESTINATION, TO + 1, 256), (PORT, 1, 65536), (DESTINATION_PORT, 1, 2**32)):
        say("set up")
        piece(0, 0, 1, 0, 8)
        forge(0, (field, value))
        piece(0, 0, 1, 0, 8)
        last(0, 0, 1, 8, 4, flow=flow)
        last(0, 0, 1, 8, 4)
        bill(0)
    end()
    begin("what a last mark of 2, 255 or 65535 does")
    for mark in MARKS:
        for then in (lambda: last(0, 0, 1, 8, 4, 9), lambda: piece(0, 0, 1, 8, 4), lambda: last(0, 0, 1, 8, 4, 10), lambda: piece(0, 0, 1, 12, 1),
                     lambda: last(0, 0, 1, 20, 4), lambda: last(0, 0, 1, 0, 4), lambda: piece(0, 0, 1, 0, 8)):
            say(f"-- the last piece is marked {mark}")
            say("set up")
            last(0, 0, 1, 8, 4, 9)
            forge(0, (LAST, mark))
            then()
            bill(0)
            piece(0, 0, 1, 0, 8)
            bill(0)
        say(f"-- a piece is marked {mark}, and its r is 0")
        say("set up")
        piece(0, 0, 1, 8, 8)
        forge(0, (LAST, mark))
        last(0, 0, 1, 8, 8, 0)
        piece(0, 0, 1, 0, 8)
        bill(0)
    say("-- the mark is taken away")
    say("set up")
    last(0, 0, 1, 8, 4, 9)
    forge(0, (LAST, 0))
    piece(0, 0, 1, 8, 4)
    piece(0, 0, 1, 0, 8)
    bill(0)
    last(0, 0, 1, 12, 4)
    bill(0)
    end()


def forged_records():
    begin("22: forged records, one clause each", 3)
    tried(FORGED + SOUND)
    say(f"-- {PIECES + 1} counted where {PIECES} are held")
    say("set up")
    for i in range(PIECES):
        piece(1, 0, 1, 2 * i, 1)
    for n in (PIECES + 1, PIECES, 255, PIECES - 1, 256 + PIECES):
        forge(1, (COUNT, n))
        bill(1)
        piece(1, 0, 1, 0, 1)
    say("-- set up again")
    say("set up")
    for k in range(3):
        bill(k)
    end()


def orders():
    """Clients: 0 plain, 1 four live, 2 with all pieces, 3 unsound, 4 to 6 as 0 to 2 with all offered, 7 four live and unsound."""
    begin("20 to 30, and 32: each against each", 8)
    for k in (0, 4):
        piece(k, 1000, 1, 100, 1)
    for k in (1, 5, 7):
        for key in range(1, 5):
            piece(k, 1000, key, 100, 1)
    for k in (2, 6):
        for i in range(PIECES):
            piece(k, 1000, 1, 100 + 2 * i, 1)
    piece(3, 1000, 1, 100, 1)
    forge(3, (OFFERED, 2))
    forge(7, (OFFERED, 5))
    for k, held in ((4, 1), (5, 4), (6, PIECES)):
        forge(k, (OFFERED, LIMIT), (DELIVERED, LIMIT - held))

    count = 0  # the other cause of 20

    def call(causes):
        plain = {29: 1, 30: 2}.get(causes[-1], 0)
        nobody = 13 if count in causes else 8
        k = nobody if 21 in causes else 7 if 22 in causes and 29 in causes else 3 if 22 in causes else plain + 4 if 28 in causes else plain
        place = ORIGINAL + 1 if 25 in causes else 300
        length = 0 if 24 in causes else 3
        key = 9 if 29 in causes else 1
        if 25 in causes and 24 not in causes:
            place = ORIGINAL - 2
        table([9 if 32 in causes else 4] + [4] * (12 if count in causes else 7), 8 * SHARE + (20 in causes), ORIGINAL - (23 in causes))
        say(f"-- {' '.join(str(cause or 'count') for cause in causes)}")
        if 26 in causes:
            last(k, 999 if 27 in causes else 1000, key, place, length, place + length + 1)
        else:
            piece(k, 999 if 27 in causes else 1000, key, place, length)

    impossible = ({21, 22}, {24, 28}, {29, 30}, {22, 30})
    order = [count, 32, *range(20, 31)]
    for at, first in enumerate(order):
        call([first])
        for second in order[at + 1:]:
            if not any(pair <= {first, second} for pair in impossible):
                call([first, second])
    for at in range(3):
        call(order[at:3] + [21, 23, 24, 25, 26, 27])
        call(order[at:3] + [22, 23, 24, 25, 26, 27, 29])
    for first in range(21, 25):
        call([c for c in range(first, 28) if c != 22 or first == 22] + [29])
    for first in range(25, 30):
        call([*range(first, 28), 28, 29] if first < 28 else [*range(first, 30)])
    table(8)
    for k in range(8):
        bill(k)
    end()
    begin("23 to 26 and what is ignored")
    table(1, out=0)
    piece(0, 0, 1, 0, 8)
    table(1, out=ORIGINAL - 1)
    last(0, 0, 1, 0, 8)
    table(1, out=ORIGINAL + 1)
    last(0, 0, 1, 0, 8, 3)
    table(1, out=ORIGINAL + 104)
    last(0, 0, 1, 0, 8, 3)
    table(1)
    piece(0, 0, 2, 0, 0)
    last(0, 0, 2, 0, 0)
    last(0, 0, 2, 4, 4, 9)
    last(0, 0, 2, 4, 4, MOST)
    piece(0, 0, 2, 0, 4, 9000)
    piece(0, 0, 2, 0, 4, 7)
    last(0, 0, 2, 4, 4, 0)
    bill(0)
    end()
    begin("20 to 28 set no time, expire nothing, offer nothing")
    piece(0, 10, 1, 0, 8)
    piece(0, 500000, 2, ORIGINAL, 1)
    piece(0, 500000, 2, 0, 0)
    last(0, 500000, 2, 0, 1, 2)
    table(1, out=9)
    piece(0, 500000, 2, 0, 1)
    table(1)
    bill(0)
    clock(0, 9)
    clock(0, 10)
    piece(0, 9, 1, 8, 1)
    piece(0, 10, 1, 8, 1)
    clock(0, 119999)
    bill(0)
    end()
    begin("29 sets the time, 30 expires another")
    for key in range(1, 5):
        piece(0, 100, key, 0, 2)
    piece(0, 7000, 5, 0, 2)
    clock(0, 6999)
    clock(0, 7000)
    bill(0)
    say("set up")
    piece(0, 0, 1, 0, 7)
    for i in range(PIECES):
        piece(0, 60000, 2, 2 * i, 1)
    piece(0, 120000, 2, 2 * PIECES + 8, 5)
    bill(0)
    clock(0, 119999)
    end()
    begin("28: up to the limit")
    forge(0, (OFFERED, LIMIT - 20), (EXPIRED, LIMIT - 20))
    piece(0, 5, 1, 0, 21)
    clock(0, 0)
    piece(0, 5, 1, 0, 8)
    piece(0, 6, 1, 0, 8)
    piece(0, 7, 1, 0, 8)
    last(0, 7, 1, 8, 4, 8)
    piece(0, 8, 2, 0, 1)
    bill(0)
    clock(0, 9)
    piece(0, 9, 2, 0, 1)
    end()


# ---- what becomes of a piece

def fates():
    begin("repeats")
    piece(0, 0, 1, 0, 8)
    last(0, 1, 1, 16, 4, 18)
    piece(0, 2, 1, 0, 8)
    piece(0, 3, 1, 0, 8, 5)
    last(0, 4, 1, 16, 4, 18)
    piece(0, 5, 1, 8, 4)
    piece(0, 6, 1, 8, 4)
    bill(0)
    piece(0, 7, 1, 12, 4)
    bill(0)
    piece(0, 8, 1, 12, 4)
    bill(0)
    end()
    begin("nearly repeats, clashes all")
    for how in ({"other": 1}, {"length": 7}, {"length": 9}, {"place": 1}, {"last": True, "r": 8}):
        piece(0, 0, 1, 0, 8)
        piece(0, 0, 1, **{"place": 0, "length": 8, **how})
        bill(0)
    for how in ({"r": 9}, {"r": 12, "other": 3}, {"last": False}, {"place": 9, "length": 3}, {"length": 3}, {"place": 20}):
        last(0, 0, 1, 8, 4, 12)
        piece(0, 0, 1, **{"place": 8, "length": 4, "r": 12, "last": True, **how})
        bill(0)
    end()
    begin("clashes")
    for p, q in (((10, 5), (14, 1)), ((10, 5), (9, 2)), ((10, 5), (0, ORIGINAL)), ((10, 5), (12, 1)), ((10, 5), (10, 5))):
        piece(0, 0, 1, *p)
        piece(0, 0, 1, *q, other=7)
        bill(0)
    say("-- past the known end, and an end before a held one's")
    last(0, 0, 1, 10, 5)
    piece(0, 0, 1, 15, 1)
    piece(0, 0, 1, 15, 1)
    last(0, 0, 1, 10, 5)
    bill(0)
    last(0, 0, 1, 10, 5)
    last(0, 0, 1, 0, 5)
    piece(0, 0, 1, 0, 1)
    piece(0, 0, 1, 2, 1)
    piece(0, 0, 1, 4, 1)
    last(0, 0, 1, 3, 1, 0)
    bill(0)
    say("-- touching is no clash")
    piece(0, 0, 1, 10, 5)
    piece(0, 0, 1, 5, 5)
    last(0, 0, 1, 15, 1, 0)
    piece(0, 0, 1, 0, 5)
    bill(0)
    end()
    begin("a single last piece")
    for length in (1, 8, ORIGINAL):
        last(0, 0, 1, 0, length, length)
        last(0, 0, 1, 0, length, 0)
    last(0, 0, 1, 1, 7, 0)
    for key in range(2, 5):
        piece(0, 0, key, 0, 1)
    last(0, 0, 9, 0, 8)
    last(0, 0, 1, 0, 1, 0)
    last(0, 0, 9, 0, 8)
    bill(0)
    end()
    begin("no last piece, no delivery")
    for i in range(4):
        piece(0, 0, 1, QUARTER * i, QUARTER)
    bill(0)
    last(0, 0, 1, ORIGINAL - 1, 1)
    bill(0)
    piece(0, 0, 2, 8, 4)
    piece(0, 0, 2, 0, 4)
    last(0, 0, 2, 12, 4)
    bill(0)
    piece(0, 0, 2, 4, 4)
    bill(0)
    end()
    begin("a key that expired comes again")
    piece(0, 0, 1, 0, 8)
    piece(0, 1, 1, 8, 8)
    last(0, 120000, 1, 16, 4)
    bill(0)
    piece(0, 120000, 1, 0, 8, other=5)
    piece(0, 120001, 1, 8, 8, other=6)
    bill(0)
    clock(0, 239999)
    bill(0)
    piece(0, 239999, 1, 0, 4)
    clock(0, 240000)
    bill(0)
    end()
    begin("the lowest free place")
    for key in range(1, 5):
        piece(0, 10 * key, key, 0, 100, other=key)
    last(0, 41, 3, 100, 1)
    last(0, 41, 2, 100, 1)
    piece(0, 42, 5, 0, 50, other=5)
    piece(0, 43, 1, 99, 2)
    piece(0, 44, 6, 4, 50, other=6)
    piece(0, 120040, 7, 8, 50, other=7)
    piece(0, 120041, 8, 12, 50, other=8)
    piece(0, 120042, 9, 16, 50, other=9)
    bill(0)
    end()
    begin("every part of the key counts")
    flows = (0, 1, 256, 65536)
    for flow in flows:
        piece(0, 0, 1, 0, 8, flow=flow)
    piece(0, 0, 1, 0, 8, flow=2**32)
    piece(0, 0, 2, 0, 8)
    piece(0, 0, 2**24 + 1, 0, 8)
    for flow in flows:
        last(0, 0, 1, 8, 4, flow=flow)
    piece(0, 0, 1, 0, 8, flow=2**32)
    piece(0, 0, 2, 0, 8)
    piece(0, 0, 2**31 + 2, 0, 8)
    last(0, 0, 2**32 - 1, 8, 8)
    bill(0)
    end()
    begin("times near 2^64")
    piece(0, MOST - 120000, 1, 0, 8)
    piece(0, MOST - 119999, 2, 0, 4)
    piece(0, MOST - 1, 3, 0, 2)
    bill(0)
    piece(0, MOST, 4, 0, 1)
    bill(0)
    last(0, MOST, 2, 4, 4)
    clock(0, MOST)
    clock(0, MOST - 1)
    piece(0, 0, 5, 0, 1)
    last(0, MOST, 3, 2, 4)
    bill(0)
    say("set up")
    piece(0, 0, 1, 0, 8)
    clock(0, MOST)
    bill(0)
    say("set up")
    piece(0, MOST, 1, 0, 8)
    last(0, MOST, 1, 8, 8, 0)
    bill(0)
    end()


# ---- when an original is whole

def cut(lengths):
    """Pieces of these lengths, one behind the other: place, length, and whether it is the last one."""
    return [(sum(lengths[:i]), n, i + 1 == len(lengths)) for i, n in enumerate(lengths)]


def offered(key, pieces):
    for place, length, end in pieces:
        piece(0, 0, key, place, length, 0 if end else None, last=end)


def completions():
    for n in (16, PIECES):
        for words, order in ORDERS:
            pieces = cut([*range(1, n + 1)] if words == "mixed" else [ORIGINAL // n] * n)
            for which, late in (("first", 0), ("eighth", 7), ("last", n - 1)):
                begin(f"{n} pieces, {words}, the {which} one after all others")
                rest = pieces[:late] + pieces[late + 1:]
                offered(1, [rest[i] for i in order(n - 1)])
                bill(0)
                offered(1, [pieces[late]])
                bill(0)
                end()
    begin("what does not count for completion")
    say("-- a repeat")
    offered(1, [(0, 4, False), (8, 4, True), (0, 4, False), (8, 4, True), (4, 4, False)])
    bill(0)
    say("-- the bytes of another original")
    offered(1, [(0, 4, False), (8, 4, True)])
    offered(2, [(4, 4, False), (0, 4, False)])
    bill(0)
    offered(2, [(8, 4, True)])
    offered(1, [(4, 4, False)])
    bill(0)
    say("-- what a clash has ended")
    offered(1, [(0, 4, False), (2, 4, False), (4, 4, True)])
    bill(0)
    offered(1, [(0, 4, False)])
    say("-- what was turned away")
    offered(1, [(i, 1, False) for i in range(PIECES - 1)] + [(PIECES + 9, 1, True)] + 2 * [(PIECES - 1, 10, False)])
    bill(0)
    end()
    begin("the sum is the end so far at every piece, and there is no last one till the end")
    offered(1, cut([*range(1, PIECES + 1)]))
    bill(0)
    end()
    begin("the sum is the known end at the last of them only")
    offered(1, [(12, 4, True), (0, 1, False), (11, 1, False), (1, 5, False), (7, 4, False), (6, 1, False)])
    bill(0)
    end()


# ---- RFC 9868, sections 11.4 and 11.6: two fragments that each fit an MTU of 1,500 bytes, 2,926 bytes with the UDP header

def least_sizes():
    begin("two pieces of an MTU of 1,500 bytes, in either order")
    piece(0, 0, 1, 0, 1460)
    last(0, 1, 1, 1460, 1458, 2900)
    last(0, 2, 2, 1460, 1458)
    piece(0, 3, 2, 0, 1460)
    bill(0)
    end()


# ---- document 02, R-4: reports of 7,000 bytes in small radio frames

def long_reports():
    begin("7,000 bytes in frames of 112, two reports at once")
    frames = cut([112] * 62 + [56])
    for i in range(len(frames)):
        for key, (place, length, final) in ((1, frames[i]), (2, frames[-1 - i])):
            piece(0, i, key, place, length, 6990 if final else None, last=final)
    bill(0)
    end()


# ---- several clients

def others():
    begin("another client's time expires nothing here", 2)
    piece(0, 0, 1, 0, 8)
    piece(1, 119999, 1, 0, 8)
    clock(1, 120000)
    clock(1, MOST)
    bill(0)
    bill(1)
    last(0, 1, 1, 8, 4)
    bill(0)
    end()
    begin("12 clients, each its own bytes", 12)
    for k in range(12):
        for key in range(1, 5):
            piece(k, k, key, 8 * k, 8 + k, other=16 * k + key)
    for k in reversed(range(12)):
        last(k, 100, 1 + k % 4, 8 * k + 8 + k, 5, 3, other=k)
        piece(k, 100, 1 + k % 4, 0, 8 * k, other=k + 1)
    for k in range(12):
        bill(k)
    end()
    begin("one client loops over keys it never ends, another's are delivered", 12)
    time = 0
    for turn in range(6):
        for i in range(5):
            piece(3, time, 100 + (5 * turn + i) % 7, 4 * i, 4)
            piece(3, time, 100 + (5 * turn + i) % 7, 4 * i, 4)
        piece(8, 10 * turn, turn, 0, 64)
        piece(3, time + 1, 100, 2 * turn, 5)
        piece(8, 10 * turn + 1, turn, ORIGINAL, 64)
        last(8, 10 * turn + 2, turn, 64, 36, 70)
        piece(12, time, 1, 0, 1)
        time += 50000
        clock(3, time)
        clock(3, time - 1)
    for k in (3, 8, 0):
        bill(k)
    end()
    begin("every client at once, one record forged", 12)
    for k in range(12):
        piece(k, 5, 1, 0, 10 + k)
    forge(6, (HELD, 0))
    for k in range(12):
        last(k, 6, 1, 10 + k, 1, k)
    for k in range(12):
        bill(k)
    end()
    begin("set-ups in between", 12)
    for k in (0, 11):
        piece(k, 1000, 1, 0, 8)
    say("set up")
    for k in (0, 11):
        bill(k)
        last(k, 0, 1, 8, 4)
        piece(k, 0, 1, 0, 8, other=9)
    table(2)
    say("set up")
    piece(0, 0, 1, 0, 30, other=2)
    piece(1, 0, 1, 0, 30, other=3)
    piece(11, 0, 1, 0, 30)
    table(2, 2 * SHARE + 1)
    say("set up")
    table(2)
    last(1, 0, 1, 30, 1)
    bill(0)
    bill(1)
    table(12)
    bill(11)
    say("set up")
    for k in (0, 1, 11):
        bill(k)
    last(0, 0, 1, 0, 3)
    end()


# ---- document 02, R-8: plans of different size

def all_calls(k):
    """Each of the three that name a client."""
    piece(k, 0, 1, 0, 8)
    clock(k, 0)
    bill(k)


def plans():
    full_plans()
    share_places()
    plans_out_of_range()
    other_plans()
    places_past_the_plan()


def full_plans():
    begin("plans of 1 and 8, side by side", [1, 8])
    for k, plan in enumerate((1, 8)):
        for key in range(1, plan + 2):
            piece(k, key, key, 0, 8)
        piece(k, 20, plan, 0, 8)
        last(k, 20, plan, 8, 4)
        piece(k, 20, plan + 1, 0, 8)
        piece(k, 20, plan + 2, 0, 8)
        bill(k)
    say("-- one expiry each")
    for k, plan in enumerate((1, 8)):
        first = 120020 if plan == 1 else 120001
        piece(k, first - 1, plan + 2, 0, 8)
        piece(k, first, plan + 2, 0, 8)
        piece(k, first, plan + 3, 0, 8)
        bill(k)
    end()
    begin("29 at every plan, and what makes room", range(1, PLACES + 1))
    for k in range(PLACES):
        plan = k + 1
        for key in range(1, plan + 2):
            piece(k, 5, key, 0, 10 + key, other=k)
        bill(k)
        say(f"-- plan {plan}: a delivery, then a clash, then an expiry")
        last(k, 6, plan, 10 + plan, 2, other=k)
        piece(k, 6, 20, 0, 4, other=k)
        piece(k, 6, 21, 0, 4, other=k)
        piece(k, 6, 20, 3, 4, other=k)
        piece(k, 6, 22, 0, 4, other=k)
        piece(k, 6, 23, 0, 4, other=k)
        piece(k, 120006, 24, 0, 4, other=k)
        bill(k)
    end()
    begin("a client with a plan of 8 and 64 pieces of each original", [1, 8, 1])
    step = ORIGINAL // PIECES
    for i in range(PIECES):
        for key in range(1, PLACES + 1):
            if i + 1 < PIECES:
                piece(1, i, key, step * i, step)
    piece(1, 70, 9, 0, 1)
    bill(1)
    for key in range(1, PLACES + 1):
        last(1, 70, key, ORIGINAL - step, step)
    bill(1)
    end()


def share_places():
    sizes = [3, 1, 8, 2, 5]
    begin("shares behind shares of other sizes", sizes)
    for k, plan in enumerate(sizes):
        for key in range(1, plan + 1):
            piece(k, k, key, 0, 8, other=16 * k)
            piece(k, k, key, ORIGINAL - 8, 8, other=16 * k)
    for k, plan in enumerate(sizes):
        bill(k)
        say("-- the last place of the plan, and the first")
        for key in sorted({plan, 1}, reverse=True):
            piece(k, 9, key, 8, ORIGINAL - 17, other=16 * k)
            piece(k, 9, key, ORIGINAL - 9, 1, other=16 * k)
            last(k, 9, key, ORIGINAL - 8, 8, other=16 * k)
        bill(k)
    end()
    begin("the longest originals, each place of each share", sizes)
    for k, plan in enumerate(sizes):
        for key in range(1, plan + 1):
            piece(k, 0, key, 0, ORIGINAL - 1, other=8 * k + key)
    for k, plan in reversed([*enumerate(sizes)]):
        for key in range(1, plan + 1):
            last(k, 0, key, ORIGINAL - 1, 1, 3, other=8 * k + key)
    end()
    begin("12 clients with the largest plan", [PLACES] * CLIENTS)
    for k in range(CLIENTS):
        for key in range(1, PLACES + 2):
            piece(k, 0, key, ORIGINAL - 2, 2, other=PLACES * k + key)
    for k in range(CLIENTS):
        bill(k)
    end()


def plans_out_of_range():
    begin("32: behind the count, before the store", [4, 2, 1])
    for k in range(3):
        piece(k, 0, 1, 0, 8)
    past = PLACES + 1
    # 2^51 + 4 places have as many bytes as 4, modulo 2^64; 2^64 - 3 and 8 are 5.
    for plans, store in (([past] * (CLIENTS + 1), 0), ([0] * (CLIENTS + 1), 0), ([1] * CLIENTS + [past], share(CLIENTS)), ([], 0),
                         ([past], 1), ([past], share(past)), ([past], share(PLACES)), ([0], 0), ([0], share(1)), ([MOST], 0), ([MOST], share(4)),
                         ([4, 2, 0], share(6)), ([4, 0, 1], share(5)), ([0, 2, 1], share(3)), ([4, 2, past], share(6 + past)), ([4, past, 1], share(7)),
                         ([past, 2, 1], share(7)), ([MOST - 2, 8], share(5)), ([8, MOST - 2], share(5)), ([2**51 + 4], share(4)), ([2**32 + 4], share(4)),
                         ([260], share(4)), ([2**63 + 4, 2**63], share(4)), ([0] * CLIENTS, 0), ([PLACES] * 11 + [past], share(12 * PLACES)),
                         ([4, 2, 1], share(7) - 1), ([4, 2, 1], share(7) + 1), ([4, 2, 1], share(8)), ([4, 2, 1], share(12)), ([4, 2, 1], 0),
                         ([8, 2, 1], share(7)), ([PLACES] * CLIENTS, share(CLIENTS * PLACES) - 1), ([1] * CLIENTS, share(CLIENTS) + 1)):
        table(plans, store)
        say("set up")
        all_calls(0)
        all_calls(CLIENTS)
    table([4, 2, 1])
    for k in range(3):
        bill(k)
    end()
    begin("32: another client's plan, before 21 and 22", [1, 2, 4])
    for k in range(3):
        piece(k, 5, 1, 0, 8)
    for k, plan in ((2, PLACES + 1), (0, 0), (1, MOST)):
        say(f"-- client {k}, plan {plan}")
        forge(k, (PLAN, plan))
        for other in (0, 1, 2, 3, MOST):
            all_calls(other)
        say("set up")
        forge(k, (PLAN, 1 << k))
        for other in range(3):
            bill(other)
            piece(other, 5, 1, 0, 8)
    say("-- beside a record that is refused")
    forge(1, (HELD, 9))
    all_calls(1)
    forge(2, (PLAN, 0))
    all_calls(1)
    forge(2, (PLAN, 4))
    all_calls(1)
    last(2, 5, 1, 8, 4)
    for k in range(3):
        bill(k)
    end()
    begin("32 sets no time, expires nothing, offers nothing", [1, 1])
    piece(0, 10, 1, 0, 8)
    forge(1, (PLAN, 0))
    clock(0, 500000)
    piece(0, 500000, 2, 0, 8)
    piece(0, 10, 1, 0, 8)
    forge(1, (PLAN, 1))
    bill(0)
    clock(0, 9)
    last(0, 10, 1, 8, 4)
    bill(0)
    end()
    begin("records of zeros", [0, 0, 0])
    all_calls(0)
    for plans, store in (([0, 0, 0], share(3)), ([1, 0, 0], share(1)), ([1, 1, 0], share(2)), ([1, 1, 1], share(3))):
        table(plans, store)
        say("set up")
        all_calls(1)
    end()


def other_plans():
    begin("set-up keeps each plan", [1, 8, 4])
    for turn in range(3):
        for k, plan in enumerate((1, 8, 4)):
            for key in range(1, plan + 2):
                piece(k, 10 - turn, key, turn, 4, other=turn)
            bill(k)
        say("set up")
        for k in range(3):
            bill(k)
    end()
    begin("set-ups with other plans", [8, 1])
    for key in range(1, 10):
        piece(0, 50, key, 0, 8, other=1)
    for key in range(1, 3):
        piece(1, 50, key, 0, 8, other=2)
    for plans in ([1, 8], [2, 2, 5], [3], [8, 1]):
        table(plans)
        say("set up")
        for k, plan in enumerate(plans):
            bill(k)
            for key in range(1, plan + 2):
                piece(k, 7, key, 4, 8, other=len(plans) + k)
            piece(k, 8, plan, 0, 4, other=len(plans) + k)
            last(k, 8, plan, 12, 4, other=len(plans) + k)
            bill(k)
        piece(len(plans), 0, 1, 0, 1)
    end()
    begin("a set-up that is refused leaves plans and records", [2, 3])
    for k in range(2):
        piece(k, 5, 1, 0, 8)
    for plans, store in (([2, 9], share(5)), ([3, 2], share(5) + 1), ([2, 3, 1], share(5)), ([2], share(5))):
        table(plans, store)
        say("set up")
    table([2, 3])
    for k in range(2):
        bill(k)
        for key in range(2, 5):
            piece(k, 6, key, 0, 8)
        bill(k)
    end()


def places_past_the_plan():
    begin("22: places at and past a plan of 4", 3)
    tried(FORGED_PLACES + SOUND_PLACES)
    end()
    begin("22: a plan that became smaller", [2, 8, 1])
    for k in (0, 2):
        piece(k, 0, 1, 0, 8)
    for key in range(1, 4):
        piece(1, 0, key, 0, 8)
    for plan in (2, 1, 3, 8):
        say(f"-- plan {plan}, three places live")
        table([2, plan, 1])
        for k in range(4):
            bill(k)
            clock(k, 0)
        piece(1, 0, 4, 0, 8)
        last(1, 0, 3, 8, 4)
        piece(0, 0, 1, 0, 8, other=1)
        piece(0, 0, 1, 0, 8)
        bill(0)
    end()
    begin("a plan that became larger", [2, 2])
    for key in range(1, 4):
        piece(0, 0, key, 0, 8)
    table([5, 2])
    for key in range(3, 8):
        piece(0, 1, key, 0, 8)
    bill(0)
    bill(1)
    end()


# ---- random lists

class Calls:
    """Random calls on a table of `records`; `crumbs`: many pieces of one byte and few keys; the first `fields` may be forged, of so many places."""

    def __init__(self, rng, records, crumbs=False, fields=16, keys=5, places=4):
        self.rng, self.records, self.crumbs, self.fields, self.keys, self.places = rng, records, crumbs, fields, keys, places
        self.time = dict.fromkeys(range(records + 1), 0)

    def fill(self):
        """Nearly all pieces that an assembly may have, or all."""
        for place in self.rng.sample(range(PIECES + 6), PIECES - self.rng.randrange(4)):
            piece(0, self.time[0], 1, place, 1)

    def some(self, n):
        for _ in range(n):
            k = self.rng.randrange(self.records) if self.rng.random() < 0.98 else self.records
            steps = [0, 1] if self.crumbs else [0, 0, 0, 1, 7, 30000, 60000, 119999, 120000]
            self.time[k] = min(MOST, self.time[k] + self.rng.choice(steps))
            when = self.time[k] if self.rng.random() < 0.97 else max(0, self.time[k] - self.rng.randrange(5))
            self.one(k, when, self.rng.random())

    def one(self, k, when, kind):
        if kind < 0.06:
            clock(k, when)
        elif kind < 0.15:
            bill(k)
        elif kind < 0.155:
            say("set up")
        elif self.crumbs:
            place = self.rng.randrange(PIECES + 8)
            piece(k, when, self.rng.randrange(1, 3), place, 1, last=place > PIECES + 4 and self.rng.random() < 0.1)
        else:
            self.piece(k, when)

    def piece(self, k, when):
        rng = self.rng
        unit = rng.choice([4, 4, 4, 1, ORIGINAL // 3])
        place, length = unit * rng.randrange(4), unit * rng.choice([1, 1, 1, 2, 0 if rng.random() < 0.2 else 1])
        if rng.random() < 0.03:
            place += rng.choice([1, ORIGINAL - 6, ORIGINAL, MOST - 8])
        final = rng.random() < 0.35
        r = max(0, place + length - rng.choice([0, 0, 0, 1, 4, -1 if rng.random() < 0.3 else 0])) if final else None
        piece(k, when, rng.randrange(1, self.keys + 1), place, length, r, int(rng.random() < 0.04), rng.choice([0, 0, 0, 0, 0, 1]), final)

    def forging(self):
        k = self.rng.randrange(self.records)
        for _ in range(self.rng.randrange(1, 4)):
            value = self.rng.choice([0, 1, 2, 4, 8, PIECES, PIECES + 1, ORIGINAL - 1, ORIGINAL, 65535, MOST, LIMIT, self.rng.randrange(30)])
            forge(k, (self.rng.randrange(self.fields), value, self.rng.randrange(self.places), self.rng.choice([0, 0, 1, 2, PIECES - 1])))


def random_plans(rng, records):
    return [rng.choice([1, 2, 4, 8, rng.randrange(1, PLACES + 1)]) for _ in range(records)]


def random_table(rng, plans):
    """Lends it, now and then with a byte of store too many or too few, a plan out of range, or a small out buffer."""
    store = sum(map(share, plans)) + (rng.choice([-1, 1]) if rng.random() < 0.05 else 0)
    plans = [*plans]
    if rng.random() < 0.05:
        plans[rng.randrange(len(plans))] = rng.choice([0, PLACES + 1, 2**32 + 4, 2**51 + 1, MOST])
    table(plans, store, ORIGINAL - (rng.random() < 0.05))


def random_list(seed):
    """A script of its own; from 200 on every field may be forged, the plan too."""
    rng = random.Random(9868 + seed)
    del LINES[:]
    records = rng.choice([1, 2, 12])
    plans = random_plans(rng, records)
    begin(f"random {seed}", plans)
    calls = Calls(rng, records, rng.random() < 0.2, 16 if seed < 200 else FIELDS, rng.choice([3, 5, 10]), PLACES)
    if rng.random() < 0.2:
        calls.time = {k: MOST - rng.randrange(400000) for k in calls.time}
    if rng.random() < 0.1:
        for k in range(records):
            forge(k, (DELIVERED, LIMIT - 40), (OFFERED, LIMIT - 40))
    if calls.crumbs:
        calls.fill()
    for _ in range(rng.randrange(1, 5)):
        calls.some(40)
        if rng.random() < 0.2:
            calls.forging()
        if rng.random() < 0.3:
            plans = rng.choice([random_plans(rng, records), plans[1:] + plans[:1]])
            table(plans)
            if rng.random() < 0.8:
                say("set up")
                calls.time = dict.fromkeys(calls.time, 0)
        else:
            random_table(rng, plans)
    end()
    return "\n".join(LINES) + "\n"


def stored():
    del LINES[:]
    say("-- Made by tools/vectors/lists.py")
    figures()
    misfits()
    forged_records()
    orders()
    fates()
    others()
    for seed in (1, 2, 3, 12):
        begin(f"random calls, clients: {seed}", seed)
        calls = Calls(random.Random(seed), seed, seed == 2)
        if calls.crumbs:
            calls.fill()
        calls.some(80)
        end()
    forged_fields()
    least_sizes()
    forged_sums()
    forged_orders()
    completions()
    long_reports()
    plans()
    return "\n".join(LINES) + "\n"


if __name__ == "__main__":
    sys.stdout.write(stored())
