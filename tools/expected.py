#!/usr/bin/env python3
"""The expected output of the program `profile`, of queries by windows, of the call for logs on file,
of calls on the same records in two orders, of slots held to their logs, of calls with a memory and of
many lookups as a set, computed from the paper's words.

    expected.py INPUT                    print what `profile` prints for the file INPUT
    expected.py --cases CASES EXPECTED   write the file of cases and the file of expected output
    expected.py --windows FILE           write the file of queries by windows with their answers
    expected.py --twins FILE             write the file of logs on file with what is kept of them
    expected.py --order FILE SHUFFLED    write two files of calls on a log, which have the same
                                         records line by line, in the second in another order
    expected.py --check FILE             write the file of logs and slots with what is said of them
    expected.py --memory FILE            write the file of calls with a memory with their answers
    expected.py --lookups FILE           write the file of many lookups as a set with their answers

An input is the kind (1 byte), 52 for a row limit or 45 for a share (hexadecimal), the bound
(2 bytes, least byte first) and the log. In the file of cases each case is its length (2 bytes,
least byte first) and then its bytes; the file of expected output has what `profile` prints for
one case after another.

The program takes no windows, keeps no log, reads no slot and has no memory, so these are for the Rust
tests; each query by windows, each log on file, each call in two orders, each slot with its log, each
call with a memory and each call of many lookups is a line of words, which the first lines of its file
explain.

Frames, segments, blocks and cuts are worked out one by one with Python's whole numbers and
fractions, by the shortest way from the words and not the fastest.
"""

import functools
import itertools
import math
import random
import sys
from fractions import Fraction

ROWS = 0x52
SHARE = 0x45


# ---- From records to segments --------------------------------------------------------------


def whole(data):
    """A number of several bytes, least byte first."""
    return int.from_bytes(data, "little")


def nines_of(log):
    """The nine bytes of each record of a log."""
    return [log[at:at + 9] for at in range(0, len(log) - 8, 9)]


def records_of(log):
    """The records of a log: mark, group, first, last, load."""
    return [(nine[:2], nine[2], whole(nine[3:5]), whole(nine[5:7]), whole(nine[7:9]))
            for nine in nines_of(log)]


def mean_in_hundredths(loads):
    """100 times the sum of the loads divided by their count, rounded down."""
    return math.floor(Fraction(100 * sum(loads), len(loads)))


AGGREGATES = [sum, len, min, max, mean_in_hundredths]
KINDS = range(len(AGGREGATES))
GREATEST = AGGREGATES.index(max)


def aggregate(kind, loads):
    """The value of a frame that lies in records with these loads."""
    return AGGREGATES[kind](loads)


def segments_of(log, kind):
    """The segments by group and first frame: [group, first, last, value]."""
    segments = []
    records = records_of(log)
    for group in range(8):
        mine = [(first, last, load) for _, g, first, last, load in records if g == group]
        # Between two neighbours among these frames no record begins or ends, so every frame
        # from one to before the next lies in the same records.
        edges = sorted({first for first, _, _ in mine} | {last + 1 for _, last, _ in mine})
        for start, after in zip(edges, edges[1:]):
            loads = [load for first, last, load in mine if first <= start <= last]
            if not loads:
                continue
            value = aggregate(kind, loads)
            if segments and segments[-1][0] == group and segments[-1][3] == value \
                    and segments[-1][2] + 1 == start:
                segments[-1][2] = after - 1
            else:
                segments.append([group, start, after - 1, value])
    return segments


# ---- Rows and their error ------------------------------------------------------------------


def is_gap(segments, j):
    """Whether segments j and j+1, counted from 1, are not adjacent."""
    one, other = segments[j - 1], segments[j]
    return one[0] != other[0] or one[2] + 1 != other[1]


def nearest(mean):
    """The whole number nearest to a fraction, the upper one at a half."""
    return math.floor(mean + Fraction(1, 2))


def lower_nearest(mean):
    """The whole number nearest to a fraction, the lower one at a half: as rows had it before halves
    went up."""
    return math.ceil(mean - Fraction(1, 2))


class Blocks:
    """Row value and error of every block that no gap lies within, by the kind."""

    def __init__(self, segments, kind, rounded):
        self.segments = segments
        self.kind = kind
        self.rounded = rounded
        self.known = {}

    def row_value(self, j, i):
        """The row value of the block of segments j+1 to i."""
        block = self.segments[j:i]
        if self.kind == GREATEST:
            return max(value for _, _, _, value in block)
        length = sum(last - first + 1 for _, first, last, _ in block)
        total = sum((last - first + 1) * value for _, first, last, value in block)
        return self.rounded(Fraction(total, length))

    def error(self, j, i):
        """The error of the block of segments j+1 to i."""
        if (j, i) not in self.known:
            r = self.row_value(j, i)
            self.known[j, i] = sum(
                (last - first + 1) * (value - r) ** 2
                for _, first, last, value in self.segments[j:i]
            )
        return self.known[j, i]


# ---- The split table -----------------------------------------------------------------------


class SplitTable:
    """E(k,i) and the cut kept for it, row after row, with the cuts weighed."""

    def __init__(self, segments, kind, rounded):
        self.n = len(segments)
        self.blocks = Blocks(segments, kind, rounded)
        self.gaps = [j for j in range(1, self.n) if is_gap(segments, j)]
        self.least = {}
        self.cut = {}
        self.weighed = 0

    def last_gap_below(self, i):
        return max((j for j in self.gaps if j < i), default=0)

    def fill_row(self, k):
        for i in range(k, self.n + 1):
            if k == 1:
                if self.last_gap_below(i) == 0:
                    self.least[1, i] = self.blocks.error(0, i)
                    self.cut[1, i] = 0
                continue
            best = None
            for j in range(i - 1, max(k - 1, self.last_gap_below(i)) - 1, -1):
                self.weighed += 1
                block_error = self.blocks.error(j, i)
                before = self.least.get((k - 1, j))
                if before is not None and (best is None or before + block_error < best):
                    best = before + block_error
                    self.cut[k, i] = j
                if best is not None and block_error > best:
                    break
            if best is not None:
                self.least[k, i] = best

    def rows(self, k):
        """The rows of the k blocks, from the cuts read back from the last row to the first."""
        rows = []
        i = self.n
        while k > 0:
            j = self.cut[k, i]
            block = self.blocks.segments[j:i]
            rows.append((block[0][0], block[0][1], block[-1][2], self.blocks.row_value(j, i)))
            i, k = j, k - 1
        return rows[::-1]


def reduction(segments, kind, rule, bound, rounded=nearest):
    """Rows, error and weighed cuts, or None for 'too few rows'."""
    table = SplitTable(segments, kind, rounded)
    n = table.n
    runs = len(table.gaps) + 1 if n else 0
    if n == 0:
        return [], 0, 0
    if rule == ROWS:
        if bound < runs:
            return None
        for k in range(1, min(bound, n) + 1):
            table.fill_row(k)
        errors = {k: table.least[k, n] for k in range(runs, min(bound, n) + 1)}
        chosen = min(errors, key=lambda k: (errors[k], k))
        return table.rows(chosen), errors[chosen], table.weighed
    for k in range(1, min(64, n) + 1):
        table.fill_row(k)
        if k >= runs and table.least[k, n] * 1000 <= bound * table.least[runs, n]:
            return table.rows(k), table.least[k, n], table.weighed
    return None


# ---- The program ---------------------------------------------------------------------------


def log_questions(log, on_file=False):
    """Number, index and answer of the questions of a log, in order. Whether an earlier record has
    the same nine bytes is not asked of a log on file."""
    yield 4, 0, len(log) % 9 == 0
    yield 5, 0, len(log) // 9 <= 128
    nines = nines_of(log)
    for index, (mark, group, first, last, load) in enumerate(records_of(log)):
        yield 6, index, mark == b"LD"
        yield 7, index, group <= 7
        yield 8, index, first <= last
        yield 9, index, load <= 1000
        if not on_file:
            yield 21, index, nines[index] not in nines[:index]


def refused(asked):
    """'no' with number and index of the first question that gets 'no', or None if none does."""
    return next((f"no {number} {index}" for number, index, yes in asked if not yes), None)


def questions(kind, rule, bound, log):
    """The questions ahead of 10. The slot is the program's own and long enough."""
    yield 2, 0, kind in KINDS
    yield 3, 0, (rule == ROWS and bound <= 64) or (rule == SHARE and bound <= 1000)
    yield from log_questions(log)


def profile(data):
    """What the program prints for an input."""
    if len(data) > 65536:
        return "no 5 0\n"
    if len(data) < 4:
        return "no 2 0\n"
    kind, rule, bound, log = data[0], data[1], whole(data[2:4]), data[4:]
    no = refused(questions(kind, rule, bound, log))
    if no:
        return no + "\n"
    answer = reduction(segments_of(log, kind), kind, rule, bound)
    if answer is None:
        return "no 10 0\n"
    rows, error, weighed = answer
    lines = [(len(rows), error, weighed)] + rows
    return "".join(" ".join(str(number) for number in line) + "\n" for line in lines)


# ---- Rows by windows -----------------------------------------------------------------------


class Beats:
    """Windows every so many frames from a start frame on."""

    def __init__(self, length, start):
        self.length, self.start = length, start

    def words(self):
        return f"{self.length} {self.start}"

    def question(self):
        return 18, 0, self.length > 0

    def windows(self):
        """The frames of each window; there are none after frame 65,535."""
        frames = range(65536)
        return [frames[first:first + self.length]
                for first in frames[self.start::self.length]]


class Scenes:
    """Windows by their first and their last frames."""

    def __init__(self, firsts, lasts):
        self.firsts, self.lasts = list(firsts), list(lasts)

    def words(self):
        return " ".join(",".join(map(str, frames)) or "-" for frames in (self.firsts, self.lasts))

    def question(self):
        scenes = list(zip(self.firsts, self.lasts))
        in_order = all(first <= last for first, last in scenes) and all(
            one[1] < other[0] for one, other in zip(scenes, scenes[1:]))
        return 19, 0, len(self.firsts) == len(self.lasts) and 1 <= len(scenes) <= 16 and in_order

    def windows(self):
        return [range(first, last + 1) for first, last in zip(self.firsts, self.lasts)]


def common(one, other):
    """The frames that two ranges of frames have in common."""
    return range(max(one.start, other.start), min(one.stop, other.stop))


def window_rows(log, kind, windows):
    """The rows by group and window: group, first, last, value."""
    for group in range(8):
        mine = [(range(first, last + 1), load)
                for _, g, first, last, load in records_of(log) if g == group]
        if not mine:
            continue
        for window in windows:
            loads = [load for frames, load in mine if common(frames, window)]
            if loads:
                yield group, window[0], window[-1], aggregate(kind, loads)


def slot_bytes(mark, kind, error, rows):
    """The bytes of a slot up to its zeros, in hexadecimal."""
    slot = mark + bytes([kind, len(rows)]) + error.to_bytes(8, "little")
    for group, first, last, value in rows:
        slot += b"PR" + bytes([group]) + first.to_bytes(2, "little")
        slot += last.to_bytes(2, "little") + value.to_bytes(4, "little")
    return slot.hex()


def windows_answer(kind, rule, log):
    """What a query by windows answers into a slot that is long enough: 'no' with number and index,
    or the bytes of the slot up to its zeros, in hexadecimal."""
    no = refused(itertools.chain([(2, 0, kind in KINDS), rule.question()], log_questions(log)))
    if no:
        return no
    rows = list(itertools.islice(window_rows(log, kind, rule.windows()), 65))
    if len(rows) > 64:
        return "no 20 0"
    return slot_bytes(b"PS", kind, 0, rows)


# ---- Queries by a bound and segments, as lines of words ------------------------------------


class Bound:
    """A row limit or a share."""

    def __init__(self, rule, bound):
        self.rule, self.bound = rule, bound

    def asked(self, kind):
        return f"{'rows' if self.rule == ROWS else 'share'} {kind} {self.bound}"

    def answer(self, kind, log):
        """'no' with number and index, or the cuts weighed and the bytes of the slot."""
        no = refused(questions(kind, self.rule, self.bound, log))
        if no:
            return no
        found = reduction(segments_of(log, kind), kind, self.rule, self.bound)
        if found is None:
            return "no 10 0"
        rows, error, weighed = found
        return f"{weighed} {slot_bytes(b'PH', kind, error, rows)}"


class ByWindows:
    """Beats or scenes."""

    def __init__(self, rule):
        self.rule = rule

    def asked(self, kind):
        return f"{type(self.rule).__name__.lower()} {kind} {self.rule.words()}"

    def answer(self, kind, log):
        return windows_answer(kind, self.rule, log)


class Segments:
    """The segment call."""

    def asked(self, kind):
        return f"segments {kind}"

    def answer(self, kind, log):
        """'no' with number and index, or the segments."""
        no = refused(itertools.chain([(2, 0, kind in KINDS)], log_questions(log)))
        if no:
            return no
        return " ".join(",".join(map(str, each)) for each in segments_of(log, kind)) or "-"


# ---- Logs on file --------------------------------------------------------------------------


def without_twins(log, room):
    """What the call for logs on file gives with a buffer of some length: 'no', number and index, or
    the bytes that it writes."""
    long_enough = 1, 0, room >= len(log)
    for number, index, yes in itertools.chain([long_enough], log_questions(log, on_file=True)):
        if not yes:
            return "no", number, index
    kept = []
    for nine in nines_of(log):
        if nine not in kept:
            kept.append(nine)
    return b"".join(kept)


# ---- A slot against its log ----------------------------------------------------------------


def rows_of(slot):
    """The rows of a slot: mark, group, first, last, value."""
    elevens = [slot[at:at + 11] for at in range(12, 12 + 11 * slot[3], 11)]
    return [(row[:2], row[2], whole(row[3:5]), whole(row[5:7]), whole(row[7:11]))
            for row in elevens]


def slot_questions(slot, headers=(b"PH",)):
    """Number, index and answer of the questions of a slot from 11 on, in order; by a bound if no other
    headers are named."""
    yield 11, 0, slot[:2] in headers
    yield 12, 0, slot[2] in KINDS
    yield 13, 0, slot[3] <= 64
    rows = rows_of(slot)
    for index, (mark, group, first, last, value) in enumerate(rows):
        yield 14, index, mark == b"PR"
        yield 15, index, group <= 7 and first <= last and value <= 128000
        yield 16, index, index == 0 or (group, first) > rows[index - 1][1:4:2]
    no_error = slot[:2] != b"PS" or not any(slot[4:12])
    yield 17, 0, not any(slot[12 + 11 * len(rows):768]) and no_error


@functools.lru_cache(maxsize=8)
def frame_values(log, kind):
    """The value of every covered frame, by group and frame."""
    loads = {}
    for _, group, first, last, load in records_of(log):
        for frame in range(first, last + 1):
            loads.setdefault((group, frame), []).append(load)
    return {place: aggregate(kind, each) for place, each in loads.items()}


def row_values(rows):
    """The value of the row that holds a frame, by group and frame. The rows have no mark."""
    return {(group, frame): value for group, first, last, value in rows
            for frame in range(first, last + 1)}


def squared_error(values, held):
    """The squared error, frame by frame, of rows that hold just the covered frames."""
    return sum((value - held[place]) ** 2 for place, value in values.items())


def match_questions(slot, values):
    """The questions of a slot with its log, of which both have passed their own: with the values of the
    covered frames."""
    kind = slot[2]
    held = row_values(row[1:] for row in rows_of(slot))
    yield 22, 0, values.keys() == held.keys()
    yield 23, 0, kind != GREATEST or all(held[place] >= value for place, value in values.items())
    yield 24, 0, whole(slot[4:12]) == squared_error(values, held)


def check_answer(log, slot):
    """What is said of a slot held to a log: 'yes', or 'no' with number and index."""
    def matched():
        yield from match_questions(slot, frame_values(log, slot[2]))

    return refused(itertools.chain([(1, 0, len(slot) >= 768)], log_questions(log),
                                   slot_questions(slot), matched())) or "yes"


# ---- A memory ------------------------------------------------------------------------------


def width_question(width):
    return 25, 0, 1 <= width <= 4096


@functools.lru_cache(maxsize=256)
def remembered(log, kind, width):
    """The value of every covered frame, by group and frame: the aggregate over the group's records that
    contain at least one of the last `width` frames, the frame itself included."""
    values = {}
    for group in range(8):
        mine = [(first, last, load) for _, g, first, last, load in records_of(log) if g == group]
        if not mine:
            continue
        known = {}
        # Of a frame before the first record or `width` frames behind the last one no last frame lies in
        # a record; and there are no frames behind 65,535.
        for frame in range(min(first for first, _, _ in mine),
                           min(max(last for _, last, _ in mine) + width, 65536)):
            oldest = max(0, frame - width + 1)
            # A record contains one of the frames from the oldest to this one.
            loads = tuple(load for first, last, load in mine if first <= frame and oldest <= last)
            if loads:
                if loads not in known:
                    known[loads] = aggregate(kind, loads)
                values[group, frame] = known[loads]
    return values


@functools.lru_cache(maxsize=256)
def remembered_segments(log, kind, width):
    """The segments of a log with a memory: the covered frames, joined where they are neighbours of a
    group with equal values."""
    segments = []
    for (group, frame), value in remembered(log, kind, width).items():
        if segments and segments[-1] == [group, segments[-1][1], frame - 1, value]:
            segments[-1][2] = frame
        else:
            segments.append([group, frame, frame, value])
    return segments


class MemoryQuery:
    """A query by a bound with a width, into a slot of some length. The rule may be any letter."""

    def __init__(self, kind, rule, bound, width, log, length=768):
        self.kind, self.rule, self.bound = kind, rule, bound
        self.width, self.log, self.length = width, log, length

    def words(self):
        return (f"query {self.kind} {self.rule:02x} {self.bound} {self.width} {self.length} "
                f"{self.log.hex() or '-'}")

    def questions(self):
        yield 1, 0, self.length >= 768
        yield 2, 0, self.kind in KINDS
        yield 3, 0, self.bound <= {ROWS: 64, SHARE: 1000}.get(self.rule, -1)
        yield width_question(self.width)
        yield from log_questions(self.log)

    def reduced(self):
        """Rows, error and weighed cuts, or None for 'too few rows'."""
        segments = remembered_segments(self.log, self.kind, self.width)
        return reduction(segments, self.kind, self.rule, self.bound)

    def answer(self):
        """'no' with number and index, or the cuts weighed and the bytes of the slot."""
        no = refused(self.questions())
        if no:
            return no
        found = self.reduced()
        if found is None:
            return "no 10 0"
        rows, error, weighed = found
        return f"{weighed} {slot_bytes(b'PH', self.kind, error, rows)}"

    def answer_of_before(self):
        """The answer without a memory."""
        if self.length < 768 or self.rule not in (ROWS, SHARE):
            return None
        return Bound(self.rule, self.bound).answer(self.kind, self.log)


class MemorySegments:
    """The segment call with a width, into a list of some places."""

    def __init__(self, kind, width, log, places=255):
        self.kind, self.width, self.log, self.places = kind, width, log, places

    def words(self):
        return f"segments {self.kind} {self.width} {self.places} {self.log.hex() or '-'}"

    def questions(self):
        yield 1, 0, self.places >= 255
        yield 2, 0, self.kind in KINDS
        yield width_question(self.width)
        yield from log_questions(self.log)

    def answer(self):
        """'no' with number and index, or the segments."""
        no = refused(self.questions())
        if no:
            return no
        segments = remembered_segments(self.log, self.kind, self.width)
        return " ".join(",".join(map(str, each)) for each in segments) or "-"

    def answer_of_before(self):
        return Segments().answer(self.kind, self.log) if self.places >= 255 else None


class MemoryCheck:
    """A slot held to its log with a width."""

    def __init__(self, width, log, slot):
        self.width, self.log, self.slot = width, log, slot

    def words(self):
        return (f"check {self.width} {self.log.hex() or '-'} {len(self.slot)} "
                f"{self.slot.rstrip(bytes(1)).hex() or '-'}")

    def questions(self):
        yield 1, 0, len(self.slot) >= 768
        yield width_question(self.width)
        yield from log_questions(self.log)
        yield from slot_questions(self.slot)
        yield from match_questions(self.slot, remembered(self.log, self.slot[2], self.width))

    def answer(self):
        """'yes', or 'no' with number and index."""
        return refused(self.questions()) or "yes"

    def answer_of_before(self):
        return check_answer(self.log, self.slot)


# ---- Many lookups as a set -----------------------------------------------------------------


# What is in the two lists before a call, place by place: no value of a slot, and neither 1 nor 0.
def value_before(place):
    return 2 ** 32 - 1 - place


def flag_before(place):
    return 2 + place % 254


@functools.lru_cache(maxsize=8)
def slot_values(slot):
    """The value of the row that holds a frame, by group and frame, of a slot that was read."""
    return row_values(row[1:] for row in rows_of(slot))


class Lookups:
    """Pairs of group and frame that are looked up in a slot. The list of frames and the two lists that
    are lent have so many places more than there are pairs, or less."""

    def __init__(self, slot, pairs, frames=0, values=0, covered=0):
        self.slot = slot
        self.groups = [group for group, _ in pairs]
        later = [(7 * k + 3) % 65536 for k in range(max(frames, 0))]
        self.frames = [frame for _, frame in pairs][:len(pairs) + min(frames, 0)] + later
        self.values = [value_before(place) for place in range(len(pairs) + values)]
        self.covered = [flag_before(place) for place in range(len(pairs) + covered)]

    def words(self):
        return (f"{len(self.slot)} {self.slot.rstrip(bytes(1)).hex() or '-'} "
                f"{bytes(self.groups).hex() or '-'} {numbers_of(self.frames)} "
                f"{len(self.values)} {len(self.covered)}")

    def questions(self):
        yield 1, 0, len(self.slot) >= 768
        for places in (self.frames, self.values, self.covered):
            yield 1, 0, len(places) >= len(self.groups)
        yield from slot_questions(self.slot, (b"PH", b"PS"))
        yield 26, 0, len(self.groups) <= 64
        for index, group in enumerate(self.groups):
            yield 7, index, group <= 7

    def answer(self):
        """'no' with number and index, or every place of both lists."""
        no = refused(self.questions())
        if no:
            return no
        values, covered = self.values[:], self.covered[:]
        held = slot_values(self.slot)
        for index, pair in enumerate(zip(self.groups, self.frames)):
            values[index], covered[index] = (held[pair], 1) if pair in held else (0, 0)
        return f"{numbers_of(values)} {bytes(covered).hex() or '-'}"


def numbers_of(numbers):
    """Numbers as one word."""
    return ",".join(str(number) for number in numbers) or "-"


# ---- The cases -----------------------------------------------------------------------------


def record(group, first, last, load):
    return b"LD" + bytes([group]) + b"".join(
        number.to_bytes(2, "little") for number in (first, last, load))


def log_of(records):
    return b"".join(record(*fields) for fields in records)


def case(kind, rule, bound, log):
    return bytes([kind, rule]) + bound.to_bytes(2, "little") + log


LOG_G = [(0, 0, 3, 100), (0, 2, 5, 200), (0, 6, 6, 210), (0, 9, 10, 50), (1, 0, 0, 7)]

# The running example of source document 000: the seven tuples of its instant aggregation (its
# Fig. 1(c)), A as group 0 and B as group 1.
PROJ = [(0, 1, 2, 800), (0, 3, 3, 600), (0, 4, 4, 500), (0, 5, 6, 350), (0, 7, 7, 300),
        (1, 4, 5, 500), (1, 7, 8, 500)]

# The relation of the same example (its Fig. 1(a)), project A as group 0 and B as group 1. Its span
# aggregation by trimesters is the figure's part (b).
SALARIES = [(0, 1, 4, 800), (0, 3, 6, 400), (0, 4, 7, 300), (1, 4, 5, 500), (1, 7, 8, 500)]

# The relation of source document 004's example (its Fig. 1a), therapy A as group 0 and B as
# group 1; the instant aggregation by sum is kind 0.
PATIENTS = [(0, 1, 4, 600), (0, 1, 2, 400), (0, 4, 7, 300), (0, 5, 6, 50), (0, 9, 12, 300),
            (1, 1, 3, 500), (1, 4, 8, 200), (1, 4, 5, 300), (1, 7, 8, 20), (1, 7, 8, 300)]


# Records that questions 6 to 9 refuse.
FAULTS = {
    6: [b"MD" + record(1, 5, 9, 20)[2:], b"LE" + record(1, 5, 9, 20)[2:],
        b"DL" + record(1, 5, 9, 20)[2:]],
    7: [record(8, 5, 9, 20), record(255, 5, 9, 20)],
    8: [record(1, 9, 5, 20), record(1, 256, 255, 20), record(1, 65535, 0, 20)],
    9: [record(1, 5, 9, 1001), record(1, 5, 9, 1256), record(1, 5, 9, 65535)],
}


def frames(loads, group=0, start=0):
    """One record of one frame for each load."""
    return [(group, start + i, start + i, load) for i, load in enumerate(loads)]


def crowd(count, group=7, core=2000):
    """So many different records of load 1,000, at most 144, that all contain the same frames, from
    frame 11 on. They begin with frames 0 to 11 and end with one of the core's last and the eleven
    frames behind it."""
    return [(group, 11 - i % 12, 10 + core + i // 12, 1000) for i in range(count)]


def played_through():
    """The cases of 'A log played through'."""
    g = log_of(LOG_G)
    for kind in KINDS:
        for c in list(range(0, 8)) + [63, 64, 65, 66, 255, 256, 65535]:
            yield case(kind, ROWS, c, g)
        for p in [0, 1, 2, 100, 281, 282, 283, 500, 999, 1000, 1001, 1002, 65535]:
            yield case(kind, SHARE, p, g)
    for loads in [[0, 1, 0], [0, 4, 8], [0, 1, 1], [0, 1], [0, 1, 2, 100], [5], [0], [1000, 0]]:
        for c in range(0, 5):
            yield case(0, ROWS, c, log_of(frames(loads)))
    for c in (0, 1, 2, 64):
        yield case(0, ROWS, c, log_of([(0, 0, 3, 10), (0, 4, 7, 10)]))
        yield case(0, ROWS, c, b"")
        yield case(0, SHARE, c, b"")
    # The last frame of all, alone, at the end of a record and beside other groups.
    for kind in KINDS:
        yield case(kind, ROWS, 64, log_of([(0, 65535, 65535, 1000)]))
        yield case(kind, ROWS, 64, log_of([(0, 0, 65535, 1000), (0, 65535, 65535, 1)]))
        yield case(kind, ROWS, 64, log_of([(0, 65530, 65535, 9), (0, 65533, 65535, 4),
                                           (1, 0, 2, 9), (7, 65534, 65535, 3)]))
        yield case(kind, ROWS, 1, log_of([(3, 0, 65534, 0), (3, 65535, 65535, 1000)]))
        yield case(kind, ROWS, 8, log_of([(group, 0, 65535, 1000) for group in range(8)]))
    # The greatest load, and one more.
    for load in (999, 1000, 1001, 65535):
        yield case(0, ROWS, 3, log_of([(0, 0, 0, load)]))
    # 128 records that hold one another, 129 of them, and the greatest value, 128,000.
    nested = [(2, i, 300 - i, 1000) for i in range(129)]
    for count in (127, 128, 129):
        yield case(1, ROWS, 2, log_of(nested[:count]))
        yield case(0, ROWS, 1, log_of([(7, i % 12, 65535 - i // 12, 1000) for i in range(count)]))
        yield case(0, ROWS, 64, log_of(crowd(count)))


def published():
    """The examples of the source documents."""
    for example in (PROJ, PATIENTS):
        log = log_of(example)
        for kind in KINDS:
            for c in range(0, 11):
                yield case(kind, ROWS, c, log)
            for p in (0, 2, 5, 10, 20, 24, 25, 67, 68, 150, 182, 183, 184, 185, 276, 500, 1000):
                yield case(kind, SHARE, p, log)


def refusals():
    """Every refusal of the program, at the first place and at later ones, and pairs of faults."""
    # Records that differ from each other in the load alone.
    good = [record(1, 5, 9, load) for load in range(20, 1001)]
    for wrong in itertools.chain.from_iterable(FAULTS.values()):
        for before, after in ((0, 0), (0, 3), (2, 1), (7, 0), (127, 0)):
            log = good[:before] + [wrong] + good[before:before + after]
            yield case(0, ROWS, 9, b"".join(log))
    # Two faults: in one record the lower question, in two records the earlier record.
    for one, two in itertools.permutations((6, 7, 8, 9), 2):
        yield case(0, ROWS, 9, good[0] + FAULTS[one][0] + FAULTS[two][0])
    yield case(0, ROWS, 9, b"XX" + bytes([9]) + record(1, 9, 5, 2000)[3:])
    yield case(0, ROWS, 9, record(9, 9, 5, 2000))
    yield case(0, ROWS, 9, record(1, 9, 5, 2000))
    # Lengths of the log; a wrong length comes ahead of too many records and of wrong records.
    for length in list(range(0, 20)) + [1151, 1152, 1153, 1160, 1161, 1162, 1170]:
        yield case(0, ROWS, 9, b"".join(good)[:length])
        yield case(0, ROWS, 9, bytes(length))
    yield case(0, ROWS, 9, b"".join(good))
    yield case(0, ROWS, 9, b"".join(good[:300]) + b"L")
    # Kinds, letters and bounds, alone and together.
    g = log_of(LOG_G)
    for kind in (5, 6, 0x52, 127, 128, 255):
        yield case(kind, ROWS, 4, g)
        yield case(kind, 0x00, 65, g[:-1])
    for letter in (0x00, 0x01, 0x44, 0x46, 0x51, 0x53, 0x65, 0x72, 0xFF):
        for bound in (0, 4, 64, 1000, 1001):
            yield case(0, letter, bound, g)
    for rule, bound in ((ROWS, 65), (SHARE, 1001)):
        yield case(3, rule, bound, g[:-1])
        yield case(3, rule, bound - 1, g[:-1])
    # Too few rows: for a limit below the count of runs, and for 64 rows that miss a share.
    apart = [(0, 2 * i, 2 * i, 5) for i in range(70)]
    for count in (1, 2, 63, 64, 65, 66, 70):
        log = log_of(apart[:count])
        for c in {0, 1, min(64, count) - 1, min(64, count), 64}:
            yield case(0, ROWS, c, log)
        for p in (0, 500, 1000):
            yield case(0, SHARE, p, log)
    zigzag = frames([1 + i % 2 for i in range(90)])
    for count in (63, 64, 65, 66, 80, 90):
        for p in (0, 10, 100, 290, 300, 1000):
            yield case(0, SHARE, p, log_of(zigzag[:count]))


def short_inputs():
    """Inputs shorter than 4 bytes, and the shortest whole ones."""
    for length in range(0, 4):
        for data in (bytes(length), bytes([0, ROWS, 4])[:length], bytes([9, 9, 9])[:length],
                     b"\xff" * length):
            yield data
    yield bytes([0, ROWS, 0, 0])
    yield bytes([3, SHARE, 0, 0])
    yield bytes([4, SHARE, 0, 0])
    yield bytes([5, SHARE, 0, 0])
    yield bytes([0, ROWS, 64, 0])
    yield bytes([0, ROWS, 0, 64])


def longest():
    """Logs of 128 records: the most segments, many rows, all groups."""
    stairs = [(0, i, 255 - i, 1 + i % 7) for i in range(128)]
    chain = [(4, 2 * i, 2 * i + 2, 1 + (i * i) % 11) for i in range(128)]
    steps = frames([(7 * i) % 13 for i in range(128)], group=6, start=65408)
    eighths = [(i // 16, 3 * (i % 16), 3 * (i % 16) + 3, (i * 37) % 101) for i in range(128)]
    for log, kinds in ((stairs, (0, 1, 4)), (chain, (0, 3, 4)), (steps, (0,)), (eighths, KINDS)):
        for kind in kinds:
            yield case(kind, ROWS, 8, log_of(log))
        yield case(0, ROWS, 64, log_of(log))
        yield case(0, SHARE, 300, log_of(log))
    yield case(2, ROWS, 64, log_of(stairs))
    yield case(0, SHARE, 0, log_of(steps))


def means():
    """Frames whose mean is not whole, the greatest and least means, and 128 records at a frame."""
    # 1.5, a third, two thirds, 0, 500 and 1,000.
    uneven = [(0, 0, 0, 1), (0, 0, 0, 2), (0, 1, 1, 0), (0, 1, 2, 0), (0, 1, 1, 1),
              (0, 3, 3, 0), (0, 3, 4, 1), (0, 3, 3, 1), (0, 6, 6, 0), (0, 7, 7, 0), (0, 7, 7, 1000),
              (0, 8, 8, 1000), (1, 0, 9, 1000), (1, 3, 5, 999), (1, 4, 4, 998)]
    # 128 records that hold one another: at frame 150 a mean of 128 loads.
    nested = [(2, i, 300 - i, (i * i * 7) % 1001) for i in range(128)]
    for log in (uneven, nested):
        for c in (1, 2, 3, 4, 8, 64):
            yield case(4, ROWS, c, log_of(log))
        for p in (0, 10, 100, 1000):
            yield case(4, SHARE, p, log_of(log))
    # 6 / 13 and 7 / 15 are 46 hundredths and some more: rounded down they are one segment.
    alike = [(0, i, 60 - i, int(i < 6)) for i in range(13)] + [(0, 20, 30, 1), (0, 20, 30, 0)]
    assert [0, 12, 48, 46] in segments_of(log_of(alike), 4)
    for c in (1, 13, 64):
        yield case(4, ROWS, c, log_of(alike))


def greatest():
    """Kind 3, where the greatest value of a row is not its nearest mean: errors above the sum of
    squares, and shares of a least error that nearest means would not have."""
    uneven = [(2, 0, 9, 0), (2, 4, 5, 1000), (2, 10, 10, 999), (2, 12, 20, 3), (2, 14, 14, 4),
              (5, 0, 65535, 1), (5, 9, 9, 2)]
    loads = [[0, 1], [1, 0], [0, 1, 0], [0, 4, 8], [8, 4, 0], [0, 0, 0, 9, 9], [9, 0, 0, 9],
             [0, 1, 2, 100], [100, 2, 1, 0], [5], [1000, 0, 1000], [3, 1, 4, 1, 5, 9, 2, 6, 5, 3]]
    for log in [uneven] + [frames(each) for each in loads]:
        for c in (1, 2, 3, 4, 5):
            yield case(GREATEST, ROWS, c, log_of(log))
        for p in (0, 1, 10, 50, 100, 200, 300, 400, 500, 700, 900, 999, 1000):
            yield case(GREATEST, SHARE, p, log_of(log))
    # With M by nearest means, or with all errors by them, some of these would have other rows.
    for p in (5, 6, 15, 16, 17, 18, 25, 26, 27):
        yield case(GREATEST, SHARE, p, log_of(LOG_G))


def halves():
    """Rows whose mean is half way between two whole numbers, and rows just beside a half."""
    logs = [
        # One row, and a half in each of several rows: of one group, and of several.
        frames([0, 1]), frames([1, 0]), frames([7, 10]), frames([999, 1000]),
        frames([0, 0, 1]), frames([0, 1, 1]), frames([0, 0, 1, 1]), frames([3, 4, 3, 4, 3, 4]),
        frames([0, 1, 500, 501, 900, 907]), frames([0, 1], 1) + frames([4, 7], 2, 5),
        frames([0, 1]) + frames([10, 13], 0, 9) + frames([8, 3], 7),
        # A half of many frames, and one frame more on either side.
        [(5, 0, 32767, 0), (5, 32768, 65535, 1)], [(5, 0, 32768, 0), (5, 32769, 65535, 1)],
        [(5, 0, 32766, 0), (5, 32767, 65535, 1)],
        # Counts of 1 and 2, 2 and 5; least and greatest loads, 1 apart and 3 apart.
        [(0, 0, 3, 8), (0, 2, 3, 9)], [(0, 0, 3, 9), (0, 2, 3, 8)],
        [(0, 0, 3, 7), (0, 0, 3, 9), (0, 0, 1, 4), (0, 0, 1, 5), (0, 0, 1, 6)],
        [(6, 0, 9, 4), (6, 5, 9, 1), (6, 0, 4, 7)],
        # Means in hundredths: 100 and 150 have 125; 33 and 0 have 16.5.
        [(0, 0, 1, 1), (0, 1, 1, 2)], [(0, 0, 1, 0), (0, 0, 0, 0), (0, 0, 0, 1)],
    ]
    for log in logs:
        for kind in KINDS:
            for c in (1, 2, 3):
                yield case(kind, ROWS, c, log_of(log))
            yield case(kind, SHARE, 1000, log_of(log))
    # Sums and counts of 127 and 128 records: 127,000 once and 128,000 1,999 times has the mean
    # 127,999.5. 22 rows are one for each frame on both sides, and one for those that all contain.
    # Means in hundredths: 99,999 and 100,000, each in 200 frames.
    for more in ((12, 2010, 1000), (12, 2009, 1000), (13, 2010, 1000)):
        for kind in (0, 1):
            yield case(kind, ROWS, 22, log_of(crowd(127, 3) + [(3, *more)]))
    yield case(0, ROWS, 22, log_of(crowd(127, 3) + [(3, 1011, 2010, 1)]))
    yield case(1, ROWS, 22, log_of(crowd(127, 3, core=2) + [(3, 12, 12, 1)]))
    yield case(4, ROWS, 1, log_of([(2, i, 399, 1000) for i in range(127)] + [(2, 200, 399, 999)]))


def records_at_random(numbers, base, span):
    """Up to nine records over some frames. In every tenth log or so one of them stands twice; the
    others are all different."""
    records = []
    wanted = numbers.randint(0, 9)
    while len(records) < wanted:
        first, last = sorted(numbers.randrange(span) for _ in range(2))
        one = (numbers.choice((0, 0, 3, 7)), base + first, base + last,
               numbers.choice((0, 1, 2, 3, 10, 1000)))
        if one not in records:
            records.append(one)
    if records and numbers.randrange(10) == 0:
        records.insert(numbers.randint(0, wanted), numbers.choice(records))
    return records


def at_random():
    """Small logs with many overlaps, equal values and ties."""
    numbers = random.Random(7)
    for _ in range(150):
        span = numbers.randint(1, 16)
        base = numbers.choice((0, 0, 0, 65536 - span))
        records = records_at_random(numbers, base, span)
        rule, most = numbers.choice(((ROWS, 9), (SHARE, 1000)))
        yield case(numbers.choice(KINDS), rule, numbers.randint(0, most), log_of(records))


def different(count):
    """So many different records of all groups, at most 128."""
    return [record(i % 8, 3 * i, 3 * i + i % 5, i) for i in range(count)]


# A record that is still in order when any one of its seven bytes after the mark is another.
ANY_BYTE = record(1, 0x012C, 0x0384, 0x01F4)


def one_byte_off():
    """Records that differ from ANY_BYTE in one byte each, all in order."""
    others = [record(2, 0x012C, 0x0384, 0x01F4), record(1, 0x012D, 0x0384, 0x01F4),
              record(1, 0x002C, 0x0384, 0x01F4), record(1, 0x012C, 0x0385, 0x01F4),
              record(1, 0x012C, 0x0484, 0x01F4), record(1, 0x012C, 0x0384, 0x01F5),
              record(1, 0x012C, 0x0384, 0x00F4)]
    for place, other in enumerate(others, 2):
        assert [at for at in range(9) if other[at] != ANY_BYTE[at]] == [place]
    return others


def one_bit_off(nine):
    """A record's nine bytes with one bit changed, each of the 72."""
    return [(whole(nine) ^ 1 << bit).to_bytes(9, "little") for bit in range(72)]


def twin_logs():
    """Logs with twins, and logs whose records are nearly equal, by their records' bytes."""
    g = nines_of(log_of(LOG_G))
    a, b, c = g[:3]
    # A record of G once more, before or after every record behind it.
    for one in range(len(g)):
        for place in range(one + 1, len(g) + 1):
            yield g[:place] + [g[one]] + g[place:]
    # Three equal ones, two different pairs, and a whole log twice.
    yield from ([a, a, a], [b, a, b, c, b], [a, a, b, b], [a, b, b, a], [a, b, a, b],
                [b, a, c, a, b])
    yield g + g
    # All but equal: another byte, every other byte in one log, and bytes in other places.
    for other in one_byte_off():
        yield [ANY_BYTE, other]
        yield [other, a, ANY_BYTE]
    yield [ANY_BYTE] + one_byte_off()
    yield [ANY_BYTE] + one_byte_off() + [ANY_BYTE]
    yield one_byte_off() + [one_byte_off()[3]]
    yield [record(1, 2, 770, 515), record(2, 1, 770, 515), record(1, 2, 515, 770),
           record(1, 512, 770, 515), record(2, 256, 770, 515), record(1, 2, 515, 770)]
    # A bad record before the later one of two twins, after it, and twice.
    for wrong in [several[0] for several in FAULTS.values()]:
        yield from ([a, wrong, a], [wrong, a, a], [a, a, wrong], [a, b, a, wrong], [wrong, wrong],
                    [a, wrong, wrong], [a, wrong, b, wrong, a], [a, b, wrong, b])


def twins():
    """Logs with a record that an earlier one equals, and logs in which two are nearly equal."""
    g = log_of(LOG_G)
    for log in twin_logs():
        yield case(0, ROWS, 64, b"".join(log))
    # Any one bit of the nine bytes.
    for other in one_bit_off(ANY_BYTE):
        yield case(0, ROWS, 64, ANY_BYTE + other)
    # 128 records: the first and the last are equal, the last two, all, and none.
    many = different(128)
    for log in (many[:127] + many[:1], many[:127] + many[126:127], many[:1] * 128, many):
        yield case(1, ROWS, 64, b"".join(log))
    # By every kind and both bounds, also where there are too few rows.
    for again in (g[:9], g[36:]):
        for kind in KINDS:
            yield case(kind, ROWS, 4, g + again)
            yield case(kind, SHARE, 300, g + again)
    for rule, bound in ((ROWS, 0), (ROWS, 1), (ROWS, 2), (ROWS, 3), (SHARE, 0), (SHARE, 1000)):
        yield case(0, rule, bound, g + g[:9])
    steep = log_of(frames([1 + i % 2 for i in range(80)]))
    yield case(0, SHARE, 0, steep + steep[-9:])
    yield case(0, SHARE, 0, steep)
    # Kind, letter, bound, length and count come ahead of twins.
    for kind, rule, bound in ((5, ROWS, 4), (0, 0x44, 4), (0, ROWS, 65), (0, SHARE, 1001)):
        yield case(kind, rule, bound, g + g[:9])
    yield case(0, ROWS, 4, g + g[:9] + b"L")
    yield case(0, ROWS, 4, g + g[:8])
    yield case(0, ROWS, 4, b"".join(many) + many[5])


def windows_with_twins():
    """Queries by windows of logs with twins: kind, rule, log."""
    g = log_of(LOG_G)
    rules = (Beats(4, 0), Beats(1, 0), Scenes([0, 4], [3, 9]), Scenes([65535], [65535]))
    for rule in rules:
        for kind in KINDS:
            yield kind, rule, g + g[9:18]
    for log in twin_logs():
        yield 0, Scenes([0, 3], [2, 65535]), b"".join(log)
    for log in itertools.islice(twin_logs(), 21):
        yield 1, Beats(2, 1), b"".join(log)
    # Ahead of 21 the kind, the windows, length and count; behind it the number of rows.
    wide = log_of([(0, 0, 64, 1), (3, 0, 9, 7)])
    many = different(128)
    for rule in rules + (Beats(0, 0), Scenes([], []), Scenes([4], [3]), Scenes([0], [])):
        for kind in (0, 5):
            for log in (wide, wide + wide[:9], wide + wide[9:], wide[:9] + wide + wide,
                        wide + wide[:9] + b"L"):
                yield kind, rule, log
    yield 0, Beats(1, 0), b"".join(many[:127] + many[:1])
    yield 0, Scenes([0], [9]), b"".join(many[:127] + many[126:127])
    yield 0, Scenes([0], [9]), b"".join(many + many[:1])


def scene_lists():
    """Lists of scenes, right and wrong: firsts and lasts."""
    one_each = list(range(0, 170, 10))
    yield [], []
    yield [0], [0]
    yield [0], [65535]
    yield [65535], [65535]
    yield [3], [2]
    yield [65535], [0]
    # Touching, sharing a frame, apart, the same twice, one within the other, in wrong order.
    yield [0, 4], [3, 9]
    yield [0, 3], [3, 9]
    yield [0, 7], [3, 9]
    yield [2, 2], [5, 5]
    yield [0, 2], [9, 5]
    yield [7, 0], [9, 3]
    yield [0, 4, 10], [3, 9, 8]
    yield [0, 65535], [65534, 65535]
    yield [0, 65535], [65535, 65535]
    # More firsts than lasts, and fewer.
    yield [0], []
    yield [], [3]
    yield [0, 4], [3]
    yield [0], [3, 9]
    # 15, 16 and 17 scenes of one frame, of ten that touch, and 16 beside 17.
    for count in (15, 16, 17):
        frames_of = one_each[:count]
        yield frames_of, frames_of
        yield frames_of, [frame + 9 for frame in frames_of]
    yield one_each[:16], one_each
    yield one_each, one_each[:16]
    # The last two of 16 out of order, and the last one backwards.
    yield one_each[:14] + [150, 140], one_each[:14] + [150, 140]
    yield one_each[:16], one_each[:15] + [149]


def by_windows():
    """Queries by windows: kind, rule, log."""
    g, salaries = log_of(LOG_G), log_of(SALARIES)
    trimesters = Scenes([1, 5], [4, 8])
    for kind in KINDS:
        for rule in (Beats(4, 1), trimesters, Beats(4, 0), Beats(1, 0), Beats(3, 2), Beats(8, 4)):
            yield kind, rule, salaries
        for length, start in ((1, 0), (2, 1), (4, 0), (4, 3), (7, 3), (65535, 0), (65535, 6)):
            yield kind, Beats(length, start), g
        yield kind, Scenes([0, 4], [3, 9]), g
        yield kind, Scenes([1, 6, 8, 10], [4, 7, 8, 65535]), g
    for length in (0, 1, 2, 3, 5, 10, 11, 12, 256, 32767, 32768, 65534, 65535):
        for start in (0, 1, 2, 9, 10, 11, 65534, 65535):
            yield 0, Beats(length, start), g
    for lists in scene_lists():
        yield 0, Scenes(*lists), g
        yield 1, Scenes(*lists), b""
        # 128 records of one frame each, all groups.
        yield 4, Scenes(*lists), log_of([(i % 8, 2 * i, 2 * i, i) for i in range(128)])
    # The last frames: windows that are cut off, of every length that is near, and the whole.
    ends = [(0, 65530, 65535, 9), (0, 65533, 65533, 4), (7, 65535, 65535, 3), (2, 0, 65535, 1000)]
    for kind in (0, 3, 4):
        for start in (65528, 65529, 65533, 65535):
            for length in (1, 2, 3, 7, 8, 65535):
                yield kind, Beats(length, start), log_of(ends)
        yield kind, Beats(65535, 0), log_of(ends)
        yield kind, Beats(32768, 0), log_of(ends)
    yield 0, Beats(1, 0), log_of(ends)
    # 64 rows and 65: frames of one group, groups of few frames, scenes by groups.
    for last in (63, 64):
        yield 0, Beats(1, 0), log_of([(5, 0, last, 7)])
        yield 3, Beats(1, 65535 - last), log_of([(5, 0, 65535, 7)])
        yield 2, Beats(600, 0), log_of([(5, 0, 600 * last + 5, 7)])
    eighths = [(group, 8 * group, 8 * group + 7, group) for group in range(8)]
    quarters = [(group, 0, 170, 100 * group) for group in range(4)]
    sixteen = range(0, 160, 10)
    for more in ([], [(7, 160, 160, 1)], [(7, 40000, 40000, 1)]):
        yield 0, Beats(1, 0), log_of(eighths + more)
        yield 0, Scenes(sixteen, sixteen), log_of(quarters + more)
        yield 4, Scenes(sixteen, [first + 9 for first in sixteen]), log_of(quarters + more)
    yield 0, Scenes(list(sixteen)[:15] + [160], list(sixteen)[:15] + [160]), log_of(
        quarters + [(7, 160, 160, 1)])
    yield 1, Beats(1, 0), log_of([(group, 0, 65535, 1000) for group in range(8)])
    # The greatest sum, and 129 records: all of them meet frames 3 to 22 and no later ones.
    meeting = [(7, first, last, 1000) for first in range(8) for last in range(max(3, first), 23)]
    for count in (127, 128, 129):
        yield 0, Beats(20, 3), log_of(meeting[:count])
    # Frames of one record in several windows; records that meet a window in one frame at its end.
    edges = [(1, 0, 9, 1), (1, 9, 10, 2), (1, 19, 20, 4), (1, 20, 20, 8), (1, 29, 30, 16),
             (1, 39, 50, 32), (1, 39, 51, 32)]
    for kind in KINDS:
        for start in (0, 9, 10, 11):
            yield kind, Beats(10, start), log_of(edges)
    # The questions in order: the kind's, the windows', the log's, and 20 at last.
    wrong = record(1, 9, 5, 2000)
    for rule in (Beats(0, 0), Beats(1, 0), Scenes([], []), Scenes([0], [9])):
        for kind in (0, 5, 0x52, 255):
            for log in (g, g[:-1], bytes(9), wrong, record(9, 9, 5, 2000), record(1, 5, 9, 1001),
                        g + wrong, log_of([(0, 0, 64, 1)]), log_of([(0, 0, 64, 1)]) + wrong):
                yield kind, rule, log
    # Small logs at random.
    numbers = random.Random(11)
    for _ in range(150):
        span = numbers.randint(1, 30)
        base = numbers.choice((0, 0, 100, 65536 - span))
        records = records_at_random(numbers, base, span)
        start = max(0, base + numbers.randint(-3, span))
        ends = sorted(numbers.randrange(base, base + span) for _ in range(numbers.randint(1, 8)))
        rule = numbers.choice((Beats(numbers.randint(1, 9), min(start, 65535)),
                               Scenes(ends[0::2], (ends + [65535])[1::2])))
        yield numbers.choice(KINDS), rule, log_of(records)
    yield from windows_with_twins()


WINDOWS_HEAD = """\
# Queries by windows with their answers, made by tools/expected.py --windows. A line is
#     beats KIND LENGTH START LOG: ANSWER
#     scenes KIND FIRSTS LASTS LOG: ANSWER
# FIRSTS and LASTS are frames with commas between them and LOG is bytes in hexadecimal, each - if
# there are none. ANSWER is 'no', number and index, or the slot's bytes up to its zeros.
"""


def windows_lines():
    """The lines of the file of queries by windows, each once."""
    lines = {}
    for kind, rule, log in by_windows():
        name = type(rule).__name__.lower()
        asked = f"{name} {kind} {rule.words()} {log.hex() or '-'}"
        if asked not in lines:
            lines[asked] = windows_answer(kind, rule, log)
    return [f"{asked}: {answer}\n" for asked, answer in lines.items()]


def on_file():
    """Logs on file, each with the length of the buffer."""
    g = log_of(LOG_G)
    # Buffers shorter than the log, as long and longer.
    for log in (b"", g, g + g, g[:9] * 3):
        for room in (0, len(log) - 9, len(log) - 1, len(log), len(log) + 1, len(log) + 30):
            if room >= 0:
                yield log, room
    # Twins anywhere, and nearly equal records, with bad ones among them.
    for records in twin_logs():
        log = b"".join(records)
        yield log, len(log) + 2
        if len(records) > 4:
            yield log, len(log) - 1
    for other in one_bit_off(ANY_BYTE)[::5]:
        yield ANY_BYTE + other, 18
    # Each bad record at each place of a short log, and behind twins; pairs of faults.
    for wrong in itertools.chain.from_iterable(FAULTS.values()):
        for place in range(4):
            yield g[:9 * place] + wrong + g[9 * place:27], 36
        yield g[:18] + g[:18] + wrong + g[:9], 54
    for one, two in itertools.permutations(FAULTS, 2):
        yield g[:9] + FAULTS[one][0] + g[:9] + FAULTS[two][0], 36
    # Length, then count, then the records; the buffer comes ahead of all.
    many = different(128)
    bad = FAULTS[6][0]
    for log in (g[:-1], g + g[:1], bad + g[:8], b"".join(many) + bad, bad * 129 + b"L"):
        yield log, len(log)
        if len(log) < 100:
            yield log, len(log) - 1
    # 128 records: none equal, all, the first and the last, and half of them twice.
    for log in (many, many[:1] * 128, many[:127] + many[:1], many[:64] * 2):
        yield b"".join(log), 1152
    yield b"".join(many[:127] + many[:1]), 1151


TWINS_HEAD = """\
# Logs on file and what is kept of them, made by tools/expected.py --twins. A line is
#     LOG ROOM: ANSWER
# LOG is bytes in hexadecimal, - if there are none, and ROOM the length of the buffer, whose byte at
# place k is the remainder of 7 k + 1 by 256 before the call. ANSWER is 'no', number and index, and
# then the buffer is as before; or the length written and all bytes of the buffer after the call, -
# if it has none.
"""


def twins_lines():
    """The lines of the file of logs on file, each once. What is written comes back as it is when it
    is put through again."""
    lines = {}
    asked = list(on_file())
    kept = [(log, without_twins(log, room)) for log, room in asked]
    again = [(found, len(found)) for log, found in kept
             if isinstance(found, bytes) and found != log]
    for log, room in asked + again:
        found = without_twins(log, room)
        if isinstance(found, bytes):
            assert without_twins(found, len(found)) == found
            after = found + bytes((7 * k + 1) % 256 for k in range(len(found), room))
            answer = f"{len(found)} {after.hex() or '-'}"
        else:
            answer = " ".join(map(str, found))
        lines[f"{log.hex() or '-'} {room}"] = answer
    return [f"{words}: {answer}\n" for words, answer in lines.items()]


# ---- Two orders of one log -----------------------------------------------------------------


def riffled(records):
    """The records of the second half between those of the first."""
    half = (len(records) + 1) // 2
    pairs = itertools.zip_longest(records[:half], records[half:])
    return [one for pair in pairs for one in pair if one is not None]


def shuffled(records):
    """An order that looks random: each record is changed for one that is not behind it."""
    records, number = list(records), 2024
    for place in range(len(records) - 1, 0, -1):
        number = (6364136223846793005 * number + 1442695040888963407) % 2 ** 64
        other = (number >> 33) % (place + 1)
        records[place], records[other] = records[other], records[place]
    return records


# What another order of a log is made by, line by line in turns.
ORDERS = [
    lambda nines: nines[::-1],
    sorted,
    lambda nines: nines[len(nines) // 3:] + nines[:len(nines) // 3],
    riffled,
    shuffled,
]


def runs_of(log, kind):
    """The numbers of segments and of runs."""
    segments = segments_of(log, kind)
    gaps = sum(is_gap(segments, j) for j in range(1, len(segments)))
    return len(segments), gaps + (1 if segments else 0)


def both_ends(kind, log):
    """The fewest rows, one below them, one above, as many as there are segments or as a slot holds,
    and shares."""
    n, m = runs_of(log, kind)
    for limit in sorted({m - 1, m, m + 1, n, 64} & set(range(65))):
        yield kind, Bound(ROWS, limit)
    for share in (0, 1, 500, 999, 1000):
        yield kind, Bound(SHARE, share)


# Groups 0 to 3 are written by one console and 4 to 7 by another, each in the order of its frames.
CONSOLES = [[(group + 4 * console, 20 * step + 3 * group + 5 * console,
              20 * step + 3 * group + 5 * console + 7 + 6 * (step % 3),
              (37 * step + 150 * group + 11 * console) % 1001)
             for step in range(3) for group in range(4)] for console in range(2)]

# Records of one group that lie over each other. The least load, the greatest and one between them
# stand first, last and in the middle, over the same frames, over others, and within one another.
OVERLAPPING = [
    [(2, 0, 9, 500), (2, 0, 9, 1), (2, 0, 9, 999), (2, 0, 9, 2)],
    [(2, 0, 9, 7), (2, 2, 7, 3), (2, 4, 12, 9), (2, 5, 5, 0), (2, 3, 6, 1000), (2, 9, 14, 8)],
    [(6, i, 20 - i, (5 * i * i + 3) % 11) for i in range(10)],
    [(1, 0, 1, 0), (1, 0, 0, 0), (1, 0, 0, 1), (1, 1, 4, 1), (1, 3, 6, 2), (1, 6, 6, 1)],
    [(4, 65530, 65535, 9), (4, 65535, 65535, 1), (4, 0, 65535, 5), (4, 65532, 65533, 1000)],
]

# Frames in rows of which several are equally good: the latest cut is kept.
TIES = [frames(loads) for loads in (
    [0, 1, 0], [0, 4, 8], [0, 1, 0, 1], [3, 4, 3, 4, 3, 4], [5, 9, 5, 9, 5], [0, 2, 4, 6, 8, 10],
    [0, 0, 7, 7, 0, 0, 7, 7])]


def several_best(log, kind, limit):
    """Whether several lists of so many rows or fewer have the least error and the fewest rows."""
    segments = segments_of(log, kind)
    n = len(segments)
    blocks = Blocks(segments, kind, nearest)
    found = []
    for k in range(1, min(limit, n) + 1):
        for cuts in itertools.combinations(range(1, n), k - 1):
            ends = [0, *cuts, n]
            found.append((sum(blocks.error(*block) for block in zip(ends, ends[1:])), k))
    return found.count(min(found)) > 1


def in_two_orders():
    """Calls on two orders of a log: kind, call, the records' bytes in one order and, where it is
    not left to ORDERS, in the other."""
    def beats(length, start):
        return ByWindows(Beats(length, start))

    def scenes(firsts, lasts):
        return ByWindows(Scenes(firsts, lasts))

    # Log G, and the two published relations.
    g = nines_of(log_of(LOG_G))
    for kind in KINDS:
        for call in (Segments(), beats(40, 0), beats(65535, 6), scenes([0, 4], [3, 9]),
                     scenes([1, 6, 8, 10], [4, 7, 8, 65535])):
            yield kind, call, g, None
        for _, call in both_ends(kind, b"".join(g)):
            yield kind, call, g, None
        for relation in (SALARIES, PATIENTS):
            yield kind, Bound(ROWS, 4), nines_of(log_of(relation)), None
    yield 0, beats(4, 0), g, None
    yield 4, beats(4, 1), nines_of(log_of(SALARIES)), None
    # Loads that lie over each other, and ties.
    for place, records in enumerate(OVERLAPPING):
        nines = nines_of(log_of(records))
        for kind in KINDS:
            yield kind, Segments(), nines, None
            if kind == place:
                yield kind, beats(3, 1), nines, None
            else:
                yield kind, scenes([0, 5, 9], [3, 6, 65535]), nines, None
            for _, call in list(both_ends(kind, b"".join(nines)))[1 + (kind + place) % 3::3]:
                yield kind, call, nines, None
    for records in TIES:
        nines = nines_of(log_of(records))
        tied = [(kind, limit) for limit in range(1, len(records)) for kind in (0, GREATEST)
                if several_best(b"".join(nines), kind, limit)]
        assert tied, records
        for kind, limit in tied:
            yield kind, Bound(ROWS, limit), nines, None
        yield 0, Bound(SHARE, 300), nines, None
    # Two consoles: in the order of the frames, and one console after the other.
    by_frame = nines_of(log_of(sorted(CONSOLES[0] + CONSOLES[1], key=lambda each: each[1])))
    one_by_one = nines_of(log_of(CONSOLES[0] + CONSOLES[1]))
    for kind in KINDS:
        windows = scenes([0, 20, 45], [15, 44, 65535]) if kind % 2 else beats(30, 0)
        for call in (Segments(), windows):
            yield kind, call, by_frame, one_by_one
        for _, call in list(both_ends(kind, b"".join(by_frame)))[kind::5]:
            yield kind, call, by_frame, one_by_one
    # 64 rows by windows, and 65.
    wide = [(5, 0, 30, 7), (5, 20, 63, 9), (5, 3, 3, 1)]
    quarters = [(group, 0, 170, 100 * group) for group in range(4)]
    sixteen = range(0, 160, 10)
    for more in ([], [(7, 150, 150, 1)]):
        for kind in (1, 4):
            yield kind, beats(1, 0), nines_of(log_of(wide + more)), None
        yield 0, scenes(sixteen, sixteen), nines_of(log_of(quarters + more)), None
    # Records in many windows, and windows with many records.
    long = [(i % 2, 7 * i, 300 + 11 * i, (91 * i) % 1001) for i in range(14)]
    for kind in KINDS:
        yield kind, beats(150, 0), nines_of(log_of(long)), None
    yield 2, beats(20, 3), nines_of(log_of(long)), None
    yield 3, scenes(range(0, 480, 30), range(29, 509, 30)), nines_of(log_of(long)), None
    # 64 runs and 65; a share that 64 rows do not meet.
    apart = [(0, 2 * i, 2 * i, 5) for i in range(65)]
    for count, limit in ((64, 64), (64, 63), (65, 64)):
        yield 0, Bound(ROWS, limit), nines_of(log_of(apart[:count])), None
    yield 0, Bound(SHARE, 1000), nines_of(log_of(apart)), None
    zigzag = nines_of(log_of(frames([1 + i % 2 for i in range(80)])))
    yield 0, Bound(SHARE, 0), zigzag, None
    # 128 records: within each other with 255 segments, in all groups, and over few frames.
    stairs = nines_of(log_of([(0, i, 255 - i, 1 + i % 7) for i in range(128)]))
    eighths = nines_of(log_of([(i // 16, 3 * (i % 16), 3 * (i % 16) + 3, (i * 37) % 101)
                               for i in range(128)]))
    few = nines_of(log_of([(i % 3, 10 * (i % 8), 10 * (i % 8) + 12, (i * 53) % 1001)
                           for i in range(128)]))
    for nines, asks in (
            (stairs, ((1, Segments()), (0, Bound(ROWS, 1)), (0, Bound(ROWS, 4)),
                      (0, Bound(SHARE, 0)), (4, beats(30, 8)))),
            (eighths, ((3, Bound(ROWS, 7)), (3, Bound(ROWS, 8)), (1, Bound(ROWS, 64)),
                       (4, beats(15, 0)), (0, scenes(range(16), range(16))))),
            (few, ((2, Segments()), (4, Bound(ROWS, 64)), (3, Bound(SHARE, 0)),
                   (3, scenes([0, 15, 40], [9, 39, 65535]))))):
        for kind, call in asks:
            yield kind, call, nines, None


ORDER_HEAD = """\
# Calls on a log with their answers, made by tools/expected.py --order. Line by line, order.cases and
# order-shuffled.cases ask the same of the same records in two orders, and the answers are equal.
# A line is
#     rows KIND LIMIT LOG: ANSWER
#     share KIND SHARE LOG: ANSWER
#     beats KIND LENGTH START LOG: ANSWER
#     scenes KIND FIRSTS LASTS LOG: ANSWER
#     segments KIND LOG: ANSWER
# FIRSTS and LASTS are frames with commas between them and LOG is bytes in hexadecimal. ANSWER is
# 'no', number and index; or for rows and share the cuts weighed and the slot's bytes up to its
# zeros; for beats and scenes those bytes; and for segments each one's group, first frame, last frame
# and value.
"""


def order_lines():
    """The lines of the two files. Each answer is worked out from the bytes of its own line."""
    files = {}, {}
    met = set()
    for kind, call, nines, other in in_two_orders():
        if other is None:
            turn = len(files[0])
            orders = [order(nines) for order in ORDERS[turn % 5:] + ORDERS[:turn % 5]]
            other = next(order for order in orders if order != nines)
        assert nines != other and sorted(nines) == sorted(other)
        asked = call.asked(kind)
        one, two = b"".join(nines), b"".join(other)
        if f"{asked} {one.hex()}" in files[0]:
            continue
        answers = []
        for log, lines in zip((one, two), files):
            assert f"{asked} {log.hex()}" not in lines
            answers.append(call.answer(kind, log))
            lines[f"{asked} {log.hex()}"] = answers[-1]
        assert answers[0] == answers[1], (asked, one.hex(), two.hex())
        assert not answers[0].startswith("no ") or answers[0] in ("no 10 0", "no 20 0"), asked
        # What the files must have.
        name, refused = asked.split()[0], answers[0].startswith("no ")
        met.update(((name, refused), (name, kind)))
        if isinstance(call, Bound):
            n, m = runs_of(one, kind)
            if call.rule == SHARE:
                met.add((name, call.bound, refused))
            elif m < n:
                met.update(((name, "runs", call.bound - m), (name, "segments", call.bound - n)))
        if len(nines) == 128:
            met.add((name, "128 records", refused))
    owed = {(name, kind) for name in ("rows", "share", "beats", "scenes", "segments")
            for kind in KINDS}
    owed |= {(name, refused) for name in ("rows", "share", "beats", "scenes")
             for refused in (False, True)}
    owed |= {("rows", "runs", 0), ("rows", "runs", -1), ("rows", "segments", 0),
             ("share", 0, True)}
    owed |= {("share", share, False) for share in (0, 1, 500, 999, 1000)}
    owed |= {(name, "128 records", False)
             for name in ("rows", "share", "beats", "scenes", "segments")}
    assert owed <= met, owed - met
    return [[f"{asked}: {answer}\n" for asked, answer in lines.items()] for lines in files]


def all_cases():
    """Every case once, in order."""
    return list(dict.fromkeys(itertools.chain(
        played_through(), published(), refusals(), short_inputs(), longest(), means(), greatest(),
        halves(), at_random(), twins())))


# ---- Slots with their logs -----------------------------------------------------------------


def whole_slot(kind, error, rows, header=b"PH"):
    """The 768 bytes of a slot, by a bound if no other header is named."""
    return bytes.fromhex(slot_bytes(header, kind, error, rows)).ljust(768, b"\0")


def with_right_error(log, kind, rows):
    """The slot of some rows that cover what the log covers, with their error."""
    return whole_slot(kind, squared_error(frame_values(log, kind), row_values(rows)), rows)


def with_byte(data, place, byte):
    return data[:place] + bytes([byte]) + data[place + 1:]


def finer(rows):
    """The rows with one of them cut in two, at every frame."""
    for place, (group, first, last, value) in enumerate(rows):
        for cut in range(first + 1, last + 1):
            parts = [(group, first, cut - 1, value), (group, cut, last, value)]
            yield rows[:place] + parts + rows[place + 1:]


def as_written():
    """Logs with the slots that a query by a bound writes for them: log, kind, rows, error."""
    logs = [LOG_G, PROJ, SALARIES, PATIENTS, frames([0, 1]), frames([0, 1, 500, 501, 900, 907]),
            frames([3, 1, 4, 1, 5, 9], 2, 65530)] + OVERLAPPING
    for log in map(log_of, logs):
        for kind in KINDS:
            n, m = runs_of(log, kind)
            bounds = {(ROWS, m), (ROWS, (m + n) // 2), (ROWS, n), (SHARE, 300), (SHARE, 20)}
            for rule, bound in sorted(bounds):
                rows, error, _ = reduction(segments_of(log, kind), kind, rule, bound)
                yield log, kind, rows, error


def moved(rows):
    """The rows with one field of one of them one less or one more: its group, first, last or value."""
    for place, row in enumerate(rows):
        for field in range(4):
            for step in (-1, 1):
                other = list(row)
                other[field] += step
                if 0 <= other[field] <= (255, 65535, 65535, 2 ** 32 - 1)[field]:
                    yield rows[:place] + [tuple(other)] + rows[place + 1:]


def damaged(log, kind, rows, error):
    """A slot that passes with its log, damaged or made otherwise: what is due where it is known by
    the way it was made, and the slot."""
    for wrong in sorted({error - 1, error + 1, 0, error + 2 ** 32, 2 ** 64 - 1} - {error, -1}):
        yield "no 24 0", whole_slot(kind, wrong, rows)
    for other in moved(rows):
        yield None, whole_slot(kind, error, other)
        if [row[:3] for row in other] == [row[:3] for row in rows]:
            # One below is short of some frame where the row held the greatest value in it.
            short = kind == GREATEST and any(one[3] < row[3] for one, row in zip(other, rows))
            yield "no 23 0" if short else "yes", with_right_error(log, kind, other)
    for other in (number for number in range(6) if number != kind):
        yield None if other < 5 else "no 12 0", whole_slot(other, error, rows)
    for mark in (b"PS", b"PC", b"PR", b"QH", b"HP"):
        yield "no 11 0", mark + whole_slot(kind, error, rows)[2:]
    for other in finer(rows):
        yield "yes", whole_slot(kind, error, other)
    for place, row in enumerate(rows):
        yield "no 22 0", whole_slot(kind, error, rows[:place] + rows[place + 1:])
        yield f"no 16 {place + 1}", whole_slot(kind, error, rows[:place] + [row] + rows[place:])
    for place, (one, other) in enumerate(zip(rows, rows[1:])):
        if one[0] == other[0]:
            joined = rows[:place] + [(*one[:2], other[2], max(one[3], other[3]))] + rows[place + 2:]
            if one[2] + 1 < other[1]:
                yield "no 22 0", whole_slot(kind, error, joined)
            else:
                yield "yes", with_right_error(log, kind, joined)
                yield None, whole_slot(kind, error, joined)


def other_covers():
    """Log G with rows over other frames than it covers, all with error 0: a row more, in the gap, at
    its ends, over all of it, past the end of the records, in a group without records; a row that is
    short of a frame at each end; a row across the gap. And rows apart within a segment."""
    g = log_of(LOG_G)
    rows = [tuple(row) for row in segments_of(g, 0)]
    for more in ((0, 7, 7, 0), (0, 8, 8, 0), (0, 7, 8, 0), (0, 11, 11, 50), (0, 65535, 65535, 0),
                 (1, 1, 1, 7), (1, 65535, 65535, 0), (2, 0, 0, 7), (7, 0, 65535, 0)):
        yield g, whole_slot(0, 0, sorted(rows + [more]))
    # The places of the rows 0-1, 6, 9-10 and that of group 1.
    for place, other in ((0, (0, 1, 1, 100)), (0, (0, 0, 0, 100)), (3, (0, 6, 7, 210)),
                         (3, (0, 6, 8, 210)), (4, (0, 10, 10, 50)), (4, (0, 9, 9, 50)),
                         (4, (0, 8, 10, 50)), (4, (0, 7, 10, 50)), (4, (0, 9, 11, 50)),
                         (4, (0, 9, 65535, 50)), (5, (1, 0, 1, 7)), (5, (2, 0, 0, 7))):
        yield g, whole_slot(0, 0, rows[:place] + [other] + rows[place + 1:])
    yield g, whole_slot(0, 0, rows[:3] + [(0, 6, 10, 210)] + rows[5:])
    yield g, whole_slot(0, 0, [])
    # Frames within a segment that lie between two rows: one, and all but the first and the last.
    long = log_of([(4, 10, 29, 5), (4, 30, 39, 6), (5, 10, 29, 7)])
    for last, first in ((10, 12), (15, 17), (27, 29), (10, 29), (28, 30), (29, 31), (30, 32)):
        yield long, whole_slot(2, 0, [(4, 10, last, 5), (4, first, 39, 6), (5, 10, 29, 7)])
    for last, first in ((10, 12), (15, 17), (27, 29), (10, 29)):
        yield long, whole_slot(2, 0, [(4, 10, 29, 5), (4, 30, 39, 6), (5, 10, last, 7),
                                      (5, first, 29, 7)])
    # The log of one group and the rows of another; the log without its last record, and one more.
    yield g, whole_slot(0, 0, [(row[0] + 1, *row[1:]) for row in rows])
    yield g[:36], whole_slot(0, 0, rows)
    yield g + record(1, 1, 1, 7), whole_slot(0, 0, rows)
    yield b"", whole_slot(0, 0, rows)


# The order of the questions.
CHECK_ORDER = [1, 4, 5, 6, 7, 8, 9, 21, *range(11, 18), 22, 23, 24]


def with_faults(faults):
    """A log and a slot that get 'no' to these questions: log G and its four rows of kind 3."""
    record_faults = {6: (0, 0x4D), 7: (2, 8), 8: (4, 1), 9: (8, 4)}
    nines = nines_of(log_of(LOG_G))
    bad = nines[1]
    for fault in faults & record_faults.keys():
        bad = with_byte(bad, *record_faults[fault])
    nines[1] = bad
    if 21 in faults:
        nines.append(bad)
    if 5 in faults:
        nines += [record(3, i, i, 9) for i in range(129 - len(nines))]
    log = b"".join(nines) + (b"L" if 4 in faults else b"")
    slot = whole_slot(GREATEST, 401 if 24 in faults else 400, [
        (0, 0, 1, 100), (0, 2, 6, 209 if 23 in faults else 210), (0, 9, 10, 50),
        (1, 0, 1 if 22 in faults else 0, 7)])
    # The second row begins at place 23; its first frame is at 26 and its value at 30.
    slot_faults = {11: (1, 0x53), 12: (2, 5), 13: (3, 65), 14: (23, 0x51), 15: (32, 2), 16: (26, 1),
                   17: (767, 1)}
    for fault in faults & slot_faults.keys():
        slot = with_byte(slot, *slot_faults[fault])
    return log, slot[:767] if 1 in faults else slot


def in_order():
    """Each question's 'no' alone, and with each later question's: what is due, log and slot. A slot
    whose kind is wrong is not asked 23."""
    index = {6: 1, 7: 1, 8: 1, 9: 1, 14: 1, 15: 1, 16: 1, 21: 5}
    for place, fault in enumerate(CHECK_ORDER):
        for later in [fault] + CHECK_ORDER[place + 1:]:
            yield f"no {fault} {index.get(fault, 0)}", *with_faults({fault, later})
    yield "yes", *with_faults(set())
    yield "no 1 0", *with_faults(set(CHECK_ORDER))


def slot_lengths():
    """Slots that are too short, and longer ones, whose later bytes are any: due, log, slot."""
    g, slot = with_faults(set())
    later = bytes((7 * k + 1) % 256 for k in range(300))
    for length in (0, 1, 12, 767):
        yield "no 1 0", g, slot[:length]
    for length in (1, 2, 11, 300):
        yield "yes", g, slot + later[:length]
        yield "no 24 0", g, with_byte(slot, 4, 0) + later[:length]
    # Rows to the last byte but one, and 65 of them in a longer slot.
    apart = [(5, 3 * i, 3 * i + 1, i) for i in range(65)]
    for count, due in ((63, "yes"), (64, "yes"), (65, "no 13 0")):
        log = log_of(apart[:count])
        yield due, log, whole_slot(0, 0, apart[:count])
    yield "no 22 0", log_of(apart), whole_slot(0, 0, apart[:64])


def outermost():
    """The first frame and the last, the greatest values and the greatest errors: due, log, slot."""
    ends = [(3, 0, 0, 5), (3, 65535, 65535, 6), (4, 65535, 65535, 7), (5, 0, 0, 8)]
    log = log_of(ends)
    yield "yes", log, whole_slot(0, 0, ends)
    for kind in KINDS:
        yield "yes", log, with_right_error(log, kind, [row[:3] + (1000,) for row in ends])
    for place, other in ((0, (3, 0, 1, 5)), (1, (3, 65534, 65535, 6)), (0, (3, 1, 1, 5)),
                         (1, (3, 65534, 65534, 6)), (0, (3, 0, 65534, 5)), (1, (3, 1, 65535, 6)),
                         (2, (4, 0, 65535, 7)), (3, (5, 0, 65535, 8))):
        yield "no 22 0", log, whole_slot(0, 0, ends[:place] + [other] + ends[place + 1:])
    yield "no 22 0", log, whole_slot(0, 0, [(3, 0, 65535, 5)] + ends[2:])
    # All frames: in one row, in two, and without the first or the last.
    log = log_of([(6, 0, 65535, 9)])
    yield "yes", log, whole_slot(0, 0, [(6, 0, 65535, 9)])
    yield "yes", log, whole_slot(0, 0, [(6, 0, 32767, 9), (6, 32768, 65535, 9)])
    yield "yes", log, whole_slot(0, 65536, [(6, 0, 65535, 10)])
    for first, last in ((1, 65535), (0, 65534), (0, 0), (65535, 65535)):
        yield "no 22 0", log, whole_slot(0, 0, [(6, first, last, 9)])
    # 128 records of load 1,000 at one frame, and at 2,000 of them.
    for core in (1, 2000):
        log = log_of(crowd(128, core=core))
        rows, error, _ = reduction(segments_of(log, 0), 0, ROWS, 64)
        assert error == 0 and (7, 11, 10 + core, 128000) in rows
        yield "yes", log, whole_slot(0, 0, rows)
        yield "no 24 0", log, whole_slot(1, 0, rows)
        for value in (0, 127999):
            other = [row[:3] + (min(row[3], value),) for row in rows]
            yield "yes", log, with_right_error(log, 0, other)
            yield "no 24 0", log, whole_slot(0, 0, other)
        higher = [row[:3] + (128001,) for row in rows]
        yield "no 15 0", log, whole_slot(0, 0, higher)
    # The greatest error: all frames of all groups with load 0 in rows of 128,000, one to a group and
    # eight. It, those beside it, and what 32 bits keep of it.
    log = log_of([(group, 0, 65535, 0) for group in range(8)])
    error = 8 * 65536 * 128000 ** 2
    rows = [(group, 0, 65535, 128000) for group in range(8)]
    eighths = [(group, 8192 * i, 8192 * i + 8191, 128000) for group in range(8) for i in range(8)]
    for wrong in (error - 1, error + 1, error % 2 ** 32):
        yield "no 24 0", log, whole_slot(0, wrong, rows)
    yield "yes", log, whole_slot(0, error, rows)
    yield "yes", log, whole_slot(0, error, eighths)
    yield "yes", log, whole_slot(GREATEST, error, rows)
    # The value 128,000 in many frames, in one row of 0.
    log = log_of([(7, i % 12, 65535 - i // 12, 1000) for i in range(128)])
    yield "yes", log, with_right_error(log, 0, [(7, 0, 65535, 0)])
    yield "yes", log, with_right_error(log, 0, [(7, 0, 40000, 0), (7, 40001, 65535, 1)])
    yield "no 24 0", log, whole_slot(0, 65536 * 128000 ** 2, [(7, 0, 65535, 0)])


def other_slots():
    """Slots that no query writes: due, log, slot."""
    g = log_of(LOG_G)
    # No record: with no row, with an error, with a row, by windows.
    for kind in KINDS:
        yield "yes", b"", whole_slot(kind, 0, [])
        yield "no 24 0", b"", whole_slot(kind, 1, [])
        for row in ((0, 0, 0, 0), (7, 65535, 65535, 0)):
            yield "no 22 0", b"", whole_slot(kind, 0, [row])
        yield "no 11 0", b"", with_byte(whole_slot(kind, 0, []), 1, 0x53)
        yield "no 22 0", g, whole_slot(kind, 0, [])
    # A query's own slot by windows, and its rows under the other header: the beats of G are not its
    # frames; with scenes that are its runs, the sums over the records that meet them are other ones.
    for rule in (Beats(4, 0), Scenes([0, 9], [6, 10])):
        slot = bytes.fromhex(windows_answer(0, rule, g)).ljust(768, b"\0")
        yield "no 11 0", g, slot
        yield "no 22 0", g, with_byte(slot, 1, 0x48)
    runs = Scenes([0, 9], [6, 10])
    slot = bytes.fromhex(windows_answer(0, runs, g[:36])).ljust(768, b"\0")
    yield "no 24 0", g[:36], with_byte(slot, 1, 0x48)
    # One load to a frame: sum, least and greatest are the same; count and mean are not.
    single = log_of(PROJ)
    rows = [tuple(row) for row in segments_of(single, 0)]
    for kind in KINDS:
        yield "yes" if kind in (0, 2, 3) else "no 24 0", single, whole_slot(kind, 0, rows)
    # A count of 1 to a frame with load 1, and a mean of 0: other kinds that are right.
    for load, kinds in ((1, (0, 1, 2, 3)), (0, (0, 2, 3, 4))):
        log = log_of([(2, 5, 9, load)])
        for kind in KINDS:
            yield "yes" if kind in kinds else "no 24 0", log, whole_slot(kind, 0, [(2, 5, 9, load)])
    # Kind 3 at one frame of many, at its first and its last, one below and one above; and kind 2, of
    # which rows may be below.
    for peak in (0, 1, 29, 58, 59):
        log = log_of([(0, 0, 59, 200), (0, peak, peak, 900)])
        for value, due in ((899, "no 23 0"), (900, "yes"), (901, "yes"), (128000, "yes")):
            yield due, log, with_right_error(log, GREATEST, [(0, 0, 59, value)])
        yield "no 23 0", log, whole_slot(GREATEST, 0, [(0, 0, 59, 0)])
        yield "yes", log, with_right_error(log, GREATEST, [
            (0, 0, 29, 900 if peak <= 29 else 200), (0, 30, 59, 200 if peak <= 29 else 900)])
        yield "no 23 0", log, with_right_error(log, GREATEST, [
            (0, 0, 29, 200 if peak <= 29 else 900), (0, 30, 59, 900 if peak <= 29 else 200)])
        for kind in (0, 1, 2, 4):
            for value in (0, 199, 200, 201):
                yield "yes", log, with_right_error(log, kind, [(0, 0, 59, value)])
    # The row that is short is one of several groups, the first or the last.
    log = log_of([(group, 10, 19, 100 * group + 50) for group in range(8)])
    rows = [(group, 10, 19, 100 * group + 50) for group in range(8)]
    for group in range(8):
        short = rows[:group] + [(group, 10, 19, 100 * group + 49)] + rows[group + 1:]
        for kind in KINDS:
            due = {GREATEST: "no 23 0"}.get(kind, "yes")
            yield due, log, with_right_error(log, kind, short)
    # Values of before halves went up, and of kind 3 of before: nearest means.
    half = log_of(frames([0, 1]))
    for kind in (0, 2):
        for value in (0, 1):
            yield "yes", half, whole_slot(kind, 1, [(0, 0, 1, value)])
    yield "no 23 0", half, whole_slot(GREATEST, 1, [(0, 0, 1, 0)])
    # 255 segments in 64 rows, and in one.
    stairs = log_of([(0, i, 255 - i, 1 + i % 7) for i in range(128)])
    for kind, limit in ((0, 64), (GREATEST, 64), (4, 1)):
        rows, error, _ = reduction(segments_of(stairs, kind), kind, ROWS, limit)
        yield "yes", stairs, whole_slot(kind, error, rows)
        yield "no 24 0", stairs, whole_slot(kind, error + 1, rows)


def slots_at_random():
    """Small logs and slots that fit them, cut and valued at random, half of them then damaged."""
    numbers = random.Random(8)
    for _ in range(150):
        span = numbers.randint(1, 12)
        base = numbers.choice((0, 0, 100, 65536 - span))
        records = list(dict.fromkeys(records_at_random(numbers, base, span)))
        log, kind = log_of(records), numbers.choice(KINDS)
        rows = []
        for group, first, last, value in segments_of(log, kind):
            joins = rows and rows[-1][0] == group and rows[-1][2] + 1 == first
            if joins and numbers.randrange(3) == 0:
                rows[-1] = (*rows[-1][:2], last, max(rows[-1][3], value))
            else:
                rows.append((group, first, last, value + numbers.choice((0, 0, 0, 1, 7))))
        slot = with_right_error(log, kind, rows)
        others = list(moved(rows))
        if others and numbers.randrange(2) == 0:
            slot = whole_slot(kind, whole(slot[4:12]), numbers.choice(others))
        yield None, log, slot


def against_logs():
    """Logs with slots: what is due where it is known by the way the slot was made, log and slot."""
    for turn, (log, kind, rows, error) in enumerate(as_written()):
        slot = whole_slot(kind, error, rows)
        yield "yes", log, slot
        # In turns with the records in another order, and with an error that is one more.
        if turn % 3 == 0:
            yield "yes", b"".join(ORDERS[turn % 5](nines_of(log))), slot
        elif turn % 3 == 1:
            yield "no 24 0", log, whole_slot(kind, error + 1, rows)
        # The many ways to damage a slot, by each kind with another number of rows.
        if log == log_of(LOG_G) and turn % 5 == kind:
            for due, other in damaged(log, kind, rows, error):
                yield due, log, other
    for log, slot in other_covers():
        yield "no 22 0", log, slot
    yield from in_order()
    yield from slot_lengths()
    yield from outermost()
    yield from other_slots()
    yield from slots_at_random()


CHECK_HEAD = """\
# Slots held to logs, made by tools/expected.py --check. A line is
#     LOG LENGTH SLOT: ANSWER
# LOG is bytes in hexadecimal, - if there are none, LENGTH the slot's length in bytes, and SLOT its
# bytes up to the zeros at its end, - if there are no others. ANSWER is 'yes', or 'no', number and
# index.
"""


def check_lines():
    """The lines of the file of slots with their logs, each once."""
    lines = {}
    for due, log, slot in against_logs():
        asked = f"{log.hex() or '-'} {len(slot)} {slot.rstrip(bytes(1)).hex() or '-'}"
        if asked not in lines:
            lines[asked] = check_answer(log, slot)
        assert due in (None, lines[asked]), (asked, due, lines[asked])
    numbers = [0 if answer == "yes" else int(answer.split()[1]) for answer in lines.values()]
    assert all(number in numbers for number in [0] + CHECK_ORDER)
    return [f"{asked}: {answer}\n" for asked, answer in lines.items()]


# ---- Calls with a memory -------------------------------------------------------------------

# The widths that there are not.
WRONG_WIDTHS = (0, 4097, 65535)


def memory_bounds(log, kind, width):
    """Bounds of a log with a memory: as few rows as runs, one below, one between, as many as segments or
    as a slot holds, and shares."""
    segments = remembered_segments(log, kind, width)
    n = len(segments)
    m = sum(is_gap(segments, j) for j in range(1, n)) + (1 if n else 0)
    for limit in sorted({m - 1, m, (m + n) // 2, n} & set(range(65))):
        yield ROWS, limit
    yield SHARE, 300
    yield SHARE, 0


def memory_written(log, kind, width, others=()):
    """The segments of a log with a memory, its queries by several bounds, and of the slots that they
    write the check with the same width, which accepts them, and with others: due and call."""
    yield None, MemorySegments(kind, width, log)
    for rule, bound in memory_bounds(log, kind, width):
        query = MemoryQuery(kind, rule, bound, width, log)
        yield None, query
        found = query.reduced()
        if found is not None:
            rows, error, _ = found
            slot = whole_slot(kind, error, rows)
            yield "yes", MemoryCheck(width, log, slot)
            for other in others:
                yield None, MemoryCheck(other, log, slot)


def memory_slots(log, kind, width):
    """Slots beside one that is right with a width: with another error, a value one less or more, a last
    frame one less or more, and a first one."""
    rows = [tuple(each) for each in remembered_segments(log, kind, width)]
    values = remembered(log, kind, width)
    yield "yes", MemoryCheck(width, log, whole_slot(kind, 0, rows))
    yield "no 24 0", MemoryCheck(width, log, whole_slot(kind, 1, rows))
    for other in moved(rows):
        yield None, MemoryCheck(width, log, whole_slot(kind, 0, other))
        if [row[:3] for row in other] == [row[:3] for row in rows]:
            short = kind == GREATEST and any(one[3] < row[3] for one, row in zip(other, rows))
            error = squared_error(values, row_values(other))
            due = "no 23 0" if short else "yes"
            yield due, MemoryCheck(width, log, whole_slot(kind, error, other))


def memory_ends():
    """Records at the last frames and at the first: logs and widths. The last frame is 65,535, and there is
    none behind it for a record to be remembered in."""
    for width in (2, 3, 60, 4096):
        # Just remembered to the last frame, one frame less, one more, and others there.
        for last in (65535 - width, 65536 - width, 65537 - width, 65534, 65535):
            first = min(last, 65000)
            yield log_of([(6, first, last, 9)]), width
            yield log_of([(6, last, last, 7), (6, first - 40, last - 30, 900), (2, 4, 4, 1)]), width
        yield log_of([(1, 65535, 65535, 1000)]), width
        yield log_of([(1, 65535, 65535, 1000), (1, 65536 - width, 65536 - width, 3)]), width
        yield log_of([(0, 0, 0, 5)]), width
        yield log_of([(0, 0, 0, 5), (7, 65535, 65535, 6), (7, 0, 0, 8)]), width
    for width in (1, 4095, 4096):
        yield log_of([(3, 0, 65535, 2), (3, 61440, 61440, 7)]), width


def memory_gaps():
    """Records with as many frames between them as a memory closes, one less and one more: logs and widths.
    Frames between groups are no gaps."""
    for width in (2, 3, 60, 4096):
        for gap in (width - 2, width - 1, width):
            for load in (40, 41):
                yield log_of([(4, 10, 20, 40), (4, 21 + gap, 25 + gap, load)]), width
            yield log_of([(4, 10, 20, 40), (5, 21 + gap, 25 + gap, 40)]), width
        # Three in a row, the first one still remembered where the last begins, just not, and not.
        for step in (width - 1, width, width + 1):
            yield log_of([(4, 7, 7, 1), (4, 7 + step, 7 + step, 2), (4, 8 + step, 8 + step, 4)]), width


def memory_no_twins():
    """Records of a group that differ in their last frame alone, each remembered to the last frame of all:
    logs and widths. They are no twins, and both count."""
    for width in (2, 3, 60, 4096):
        for one, other in ((65534, 65535), (65536 - width, 65535), (65536 - width, 65534)):
            if one != other:
                pair = [(5, 65000 if one > 65000 else one - 9, last, 300) for last in (one, other)]
                yield log_of(pair), width
                yield log_of(pair + [(5, 65535, 65535, 100)]), width
        # One frame each, one after the other, all of which are remembered at the last.
        yield log_of([(5, frame, frame, 250) for frame in range(65533, 65536)]), width


def memory_same_cover():
    """A peak in a load that lasts to the last frame of all, so that every width covers the same frames: the
    slot of one width with others has rows that are too long, or short of the peak. Due and call."""
    log = log_of([(3, 65400, 65535, 200), (3, 65450, 65451, 900)])
    for kind in KINDS:
        for width in (2, 10, 60, 84):
            rows, error, _ = MemoryQuery(kind, ROWS, 3, width, log).reduced()
            assert error == 0 and len(rows) == (1 if kind == 2 else 3)
            slot = whole_slot(kind, 0, rows)
            for other in (1, width - 1, width, width + 1, 4096):
                # The peak is not the least load, and 900 in a row is not below 200 in a frame.
                short = "no 23 0" if kind == GREATEST and other > width else "no 24 0"
                due = "yes" if kind == 2 or other == width else short
                yield due, MemoryCheck(other, log, slot)


def memory_refusals():
    """Wrong widths with one other fault or several, and what each call asks first: due and call."""
    g = log_of(LOG_G)
    right, error = [(0, 0, 1, 100), (0, 2, 6, 242), (0, 9, 10, 50), (1, 0, 0, 7)], 11280
    slot = whole_slot(0, error, right)
    # Logs that fail each of their questions.
    logs = [g[:-1], g[:9] * 129, g + FAULTS[6][0], FAULTS[7][0] + g, g + FAULTS[8][0], FAULTS[9][0],
            g + g[:9], b"L", b""]
    for width in WRONG_WIDTHS:
        for kind in KINDS:
            yield "no 25 0", MemoryQuery(kind, ROWS, 4, width, g)
            yield "no 25 0", MemoryQuery(kind, SHARE, 300, width, g)
            yield "no 25 0", MemorySegments(kind, width, g)
        for log in logs:
            yield "no 25 0", MemoryQuery(0, ROWS, 4, width, log)
            yield "no 25 0", MemorySegments(4, width, log)
            yield "no 25 0", MemoryCheck(width, log, slot)
        # Too few rows come last of all.
        yield "no 25 0", MemoryQuery(0, ROWS, 0, width, g)
        # Ahead of 25: the slot or list, the kind, letter and bound.
        for log in (g, g[:-1]):
            yield "no 1 0", MemoryQuery(0, ROWS, 4, width, log, 767)
            yield "no 1 0", MemoryQuery(5, ROWS, 65, width, log, 0)
            yield "no 1 0", MemorySegments(0, width, log, 254)
            yield "no 1 0", MemorySegments(5, width, log, 0)
            yield "no 1 0", MemoryCheck(width, log, slot[:767])
            for kind in (5, 255):
                yield "no 2 0", MemoryQuery(kind, ROWS, 4, width, log)
                yield "no 2 0", MemoryQuery(kind, 0, 65, width, log)
                yield "no 2 0", MemorySegments(kind, width, log)
            for rule, bound in ((ROWS, 65), (SHARE, 1001), (0x53, 4), (0x4D, width), (0, 0)):
                yield "no 3 0", MemoryQuery(0, rule, bound, width, log)
        # Of a check, the slot's questions and those of both come behind.
        for place, byte in ((0, 0), (1, 0x53), (2, 5), (3, 65), (12, 0), (19, 1), (767, 1), (4, 0)):
            yield "no 25 0", MemoryCheck(width, g, with_byte(slot, place, byte))
    # The same with a right width: the next question is asked.
    dues = ["no 4 0", "no 5 0", "no 6 5", "no 7 0", "no 8 5", "no 9 0", "no 21 5", "no 4 0"]
    for width in (2, 4096):
        for log, due in zip(logs, dues):
            yield due, MemoryQuery(0, ROWS, 4, width, log)
            yield due, MemorySegments(4, width, log)
            yield due, MemoryCheck(width, log, slot)
        for place, byte, due in ((1, 0x53, "no 11 0"), (2, 5, "no 12 0"), (3, 65, "no 13 0"),
                                 (12, 0, "no 14 0"), (14, 8, "no 15 0"), (26, 1, "no 16 1"),
                                 (767, 1, "no 17 0"), (4, 0, "no 22 0")):
            yield due, MemoryCheck(width, g, with_byte(slot, place, byte))
        yield "no 10 0", MemoryQuery(0, ROWS, 1, width, g)
        yield None, MemoryQuery(0, ROWS, 64, width, b"")
        yield "yes", MemoryCheck(width, b"", whole_slot(3, 0, []))
        yield "no 24 0", MemoryCheck(width, b"", whole_slot(3, 1, []))
        yield "no 22 0", MemoryCheck(width, b"", whole_slot(3, 0, [(0, 0, 0, 0)]))
        # Longer slots and lists.
        yield None, MemoryQuery(2, ROWS, 4, width, g, 769)
        yield None, MemorySegments(2, width, g, 256)


def memory_many():
    """Logs of 128 records with a memory: due and call."""
    # Records within each other: 255 segments without a memory, and others with one.
    stairs = log_of([(0, 2 * i, 1000 - 2 * i, 1 + i % 7) for i in range(128)])
    for kind, width in ((0, 1), (0, 2), (1, 60), (1, 4096)):
        yield None, MemorySegments(kind, width, stairs)
    yield None, MemoryQuery(0, ROWS, 3, 2, stairs)
    # Frames that are 60 apart: a memory of 60 just closes what is between them.
    apart = log_of([(i // 16, 60 * i, 60 * i, 100 + i) for i in range(128)])
    for width in (59, 60, 61, 120):
        yield None, MemorySegments(3, width, apart)
        yield None, MemoryQuery(3, ROWS, 64, width, apart)
        yield None, MemoryQuery(3, SHARE, 500, width, apart)
    # The greatest value: 128 records of one frame each, in a row, that are all remembered at one frame,
    # and with a width one less at none: two frames then have the greatest value, in one segment.
    row = log_of([(7, 40 + i, 40 + i, 1000) for i in range(128)])
    for width, most, count in ((127, 127000, 253), (128, 128000, 255), (129, 128000, 255),
                               (4096, 128000, 255)):
        segments = remembered_segments(row, 0, width)
        assert max(each[3] for each in segments) == most and len(segments) == count
        yield None, MemorySegments(0, width, row)
    yield None, MemoryQuery(1, ROWS, 1, 128, row)


def memory_calls():
    """Calls with a memory: what is due where it is known by the way the call was made, and the call."""
    g = log_of(LOG_G)
    widths = (1, 2, 3, 4, 11, 60, 4096)
    for kind in KINDS:
        for place, width in enumerate(widths):
            # The slots of a query with the widths beside its own, and with none.
            others = {widths[place - 1], widths[(place + 1) % 7], 1, width + 1, 0} - {width}
            few = sorted(others) if (kind + place) % 3 == 0 else sorted(others)[1:2]
            yield from memory_written(g, kind, width, few)
        if kind in (0, GREATEST):
            yield from memory_slots(g, kind, 3)
        # The records in other orders.
        for turn, order in enumerate(ORDERS):
            other = b"".join(order(nines_of(g)))
            query = MemoryQuery(kind, ROWS, 4, 3, other)
            due = MemoryQuery(kind, ROWS, 4, 3, g).answer()
            yield due, query
            yield MemorySegments(kind, widths[turn], g).answer(), MemorySegments(
                kind, widths[turn], other)
    for log, width in memory_ends():
        kind = (len(log) + width) % 5
        yield None, MemorySegments(0, width, log)
        yield None, MemorySegments(1, width, log)
        yield from list(memory_written(log, kind, width, [1, width - 1 or 2]))[1:6]
    for log, width in memory_gaps():
        yield from list(memory_written(log, 0, width, [width - 1, width + 1]))[:5]
        yield None, MemorySegments(4, width, log)
    for log, width in memory_no_twins():
        yield None, MemorySegments(0, width, log)
        yield None, MemorySegments(1, width, log)
        yield from list(memory_written(log, 0, width, [1]))[2:5]
        yield f"no 21 {len(log) // 9}", MemoryQuery(0, ROWS, 64, width, log + log[:9])
    yield from memory_same_cover()
    yield from memory_refusals()
    yield from memory_many()
    # Records that lie over each other, and the published relations.
    for records in OVERLAPPING[:4] + [SALARIES, PATIENTS]:
        for kind in KINDS:
            yield from list(memory_written(log_of(records), kind, 2 + kind, [1]))[:5]
    # Small logs at random.
    numbers = random.Random(9)
    for _ in range(100):
        span = numbers.randint(1, 20)
        base = numbers.choice((0, 0, 100, 65536 - span))
        records = list(dict.fromkeys(records_at_random(numbers, base, span)))
        width = numbers.choice((1, 2, 2, 3, 4, 5, 7, 10, 60))
        kind = numbers.choice(KINDS)
        calls = list(memory_written(log_of(records), kind, width, [numbers.randint(1, 9)]))
        yield from calls[:1] + numbers.sample(calls[1:], min(3, len(calls) - 1))


MEMORY_HEAD = """\
# Calls with a memory and their answers, made by tools/expected.py --memory. A line is
#     query KIND RULE BOUND WIDTH LENGTH LOG: ANSWER
#     segments KIND WIDTH PLACES LOG: ANSWER
#     check WIDTH LOG LENGTH SLOT: ANSWER
# RULE is a letter in hexadecimal, 52 for a row limit and 45 for a share, LENGTH the slot's length in
# bytes, PLACES the length of the list, and LOG and SLOT are bytes in hexadecimal, - if there are none;
# a slot's up to the zeros at its end. ANSWER is 'no', number and index; or for a query the cuts weighed
# and the slot's bytes up to its zeros; for segments each one's group, first frame, last frame and value,
# - if there are none; and for a check 'yes'.
"""


def memory_lines():
    """The lines of the file of calls with a memory, each once. With the width 1 a call answers as it did
    before."""
    lines = {}
    met = set()
    for due, call in memory_calls():
        words = call.words()
        if words not in lines:
            lines[words] = call.answer()
            name, answer = words.split()[0], lines[words]
            number = int(answer.split()[1]) if answer.startswith("no ") else 0
            met.add((name, number))
            if number == 0:
                met.add((name, "width", call.width))
                if name != "check":
                    met.add((name, "kind", call.kind))
            if call.width == 1 and call.answer_of_before() is not None:
                assert answer == call.answer_of_before(), words
                met.add((name, "before", number))
        assert due in (None, lines[words]), (words, due, lines[words])
    of_log = (4, 5, 6, 7, 8, 9, 21)
    owed = {("query", number) for number in (0, 1, 2, 3, 25, 10) + of_log}
    owed |= {("segments", number) for number in (0, 1, 2, 25) + of_log}
    owed |= {("check", number) for number in (0, 1, 25) + of_log + tuple(range(11, 18)) + (22, 23, 24)}
    owed |= {(name, "width", width) for name in ("query", "segments", "check")
             for width in (1, 2, 3, 60, 4096)}
    owed |= {(name, "kind", kind) for name in ("query", "segments") for kind in KINDS}
    owed |= {(name, "before", 0) for name in ("query", "segments", "check")}
    assert owed <= met, owed - met
    return [f"{words}: {answer}\n" for words, answer in lines.items()]


# ---- Calls of many lookups -----------------------------------------------------------------

# The rows of log G for four rows of the sum, and by beats of four frames.
ROWS_G = [(0, 0, 1, 100), (0, 2, 6, 242), (0, 9, 10, 50), (1, 0, 0, 7)]
BEATS_G = [(0, 0, 3, 300), (0, 4, 7, 410), (0, 8, 11, 50), (1, 0, 3, 7)]

# 64 rows: of one group, and eight of each group at the same frames.
ONE_GROUP = [(5, 20 * i, 20 * i + 9 + i % 11, 1000 * i) for i in range(64)]
EIGHT_GROUPS = [(group, 30 * i, 30 * i + 19, 100 * group + i) for group in range(8) for i in range(8)]

# The first frame and the last, all frames, a row of one frame, and the values 0 and 128,000.
AT_ENDS = [(0, 0, 0, 5), (0, 65535, 65535, 0), (2, 0, 65535, 0), (3, 1, 65534, 128000),
           (6, 32767, 32768, 127999), (7, 0, 32767, 128000), (7, 32768, 65535, 1)]

ROW_LISTS = [ROWS_G, BEATS_G, ONE_GROUP, EIGHT_GROUPS, AT_ENDS, []]


def by_either(rows, kind=0, error=11280):
    """The slot of some rows under each header. By a bound every error is accepted."""
    yield whole_slot(kind, error, rows)
    yield whole_slot(kind, 0, rows, b"PS")


def at_edges(rows):
    """Pairs at the edges of rows: the first frame and the last, one before and one after, within, and
    the same frames of the groups beside."""
    pairs = []
    for group, first, last, _ in rows:
        for frame in (first - 1, first, (first + last) // 2, last, last + 1):
            if 0 <= frame <= 65535:
                pairs.append((group, frame))
        pairs += [(beside % 8, first) for beside in (group - 1, group + 1)]
    return pairs + [(group, frame) for group in (0, 7) for frame in (0, 65535)]


def so_many(rows, count):
    """So many pairs at the edges of rows, from the first on and again."""
    return list(itertools.islice(itertools.cycle(at_edges(rows)), count))


def eight_groups():
    """Eight groups for one frame, in order and backwards: slot and pairs."""
    for rows in ROW_LISTS:
        for slot in by_either(rows):
            frames = sorted({frame for _, frame in at_edges(rows)})
            for frame in frames[:14 if len(rows) < 64 else 4] + frames[-2:]:
                yield slot, [(group, frame) for group in range(8)]
            yield slot, [(group, 0) for group in reversed(range(8))]


def accepted_lookups():
    """Calls that are accepted, of up to 64 pairs."""
    for slot, pairs in eight_groups():
        yield Lookups(slot, pairs)
    for rows in ROW_LISTS:
        pairs = at_edges(rows)
        for turn, slot in enumerate(by_either(rows, kind=3)):
            for start in range(32 * turn, len(pairs), 64):
                yield Lookups(slot, pairs[start:start + 64], values=start % 5, covered=start % 3)
    # All numbers of pairs, in turns with lists just long enough and with longer ones.
    for count in range(65):
        rows = ROW_LISTS[count % 6]
        for turn, slot in enumerate(by_either(rows)):
            more = (0, 1, 9, 0)[(count + turn) % 4]
            yield Lookups(slot, so_many(rows, count), more, more, (more + turn) % 4)
    # Longer lists, each alone and all.
    for count in (0, 1, 8, 63, 64):
        for more in ((1, 0, 0), (0, 1, 0), (0, 0, 1), (1, 1, 1), (0, 65, 0), (70, 2, 40)):
            yield Lookups(whole_slot(0, 11280, ROWS_G), so_many(ROWS_G, count), *more)
    # The same pair again and again, covered, uncovered and with value 0, and pairs in other orders.
    for pair in ((0, 2), (0, 7), (1, 0), (1, 1), (7, 65535)):
        for count in (2, 8, 64):
            yield Lookups(whole_slot(4, 0, ROWS_G), [pair] * count)
    for pair in ((0, 65535), (2, 0), (2, 65535), (3, 0), (3, 65535), (7, 32768)):
        yield Lookups(whole_slot(1, 0, AT_ENDS), [pair] * 3, values=1)
    backwards = [(group, first) for group, first, _, _ in reversed(EIGHT_GROUPS)]
    for pairs in (backwards, backwards[::-1], backwards[1::2] + backwards[::2]):
        yield Lookups(whole_slot(0, 0, EIGHT_GROUPS), pairs)
    # A covered pair and an uncovered one in turns: nothing is left of the pair before.
    for pairs in ([(0, 2), (0, 8)], [(0, 8), (0, 2)], [(1, 0), (0, 8), (0, 0)]):
        yield Lookups(whole_slot(2, 0, ROWS_G), pairs * 20)


def bad_groups():
    """64 pairs, and fewer, with a wrong group at each index, and with two: what is due, and the call."""
    slot = whole_slot(0, 0, [(group, 0, 40, 100 * group + 9) for group in range(0, 8, 2)])
    for count in (1, 8, 64):
        pairs = [(k % 8, k) for k in range(count)]
        for index in range(count):
            for group in (8, 255):
                bad = pairs[:index] + [(group, pairs[index][1])] + pairs[index + 1:]
                yield f"no 7 {index}", Lookups(slot, bad)
            if index % 3 == 0:
                later = bad[:index + 1] + [(group + 3 & 255 | 128, 0) for _ in bad[index + 1:]]
                yield f"no 7 {index}", Lookups(slot, later, values=2, covered=1)
            if index and index % 7 == 0:
                last = bad[:-1] + [(8, 0)]
                yield f"no 7 {index}", Lookups(slot, last)
    # No group above 7 is one of a log, also in a slot without rows and where its frame lies in a row.
    for rows in ([], ROWS_G, AT_ENDS):
        for either in by_either(rows):
            for group in (8, 9, 15, 16, 128, 255):
                yield "no 7 2", Lookups(either, [(0, 0), (7, 0), (group, 0), (1, 0)])


def wrong_lists():
    """Lists that are too short, each alone and with others, and too many pairs: due and call."""
    slot = whole_slot(0, 11280, ROWS_G)
    for count in (1, 2, 8, 63, 64):
        pairs = so_many(ROWS_G, count)
        for lengths in itertools.product((-1, 0, 3), repeat=3):
            if -1 in lengths and (count == 8 or 3 not in lengths):
                yield "no 1 0", Lookups(slot, pairs, *lengths)
        for place in range(3):
            yield "no 1 0", Lookups(slot, pairs, *[-count if k == place else 0 for k in range(3)])
        yield "no 1 0", Lookups(slot, pairs, -count, -count, -count)
    for count in (65, 66, 128, 200, 256, 320):
        pairs = so_many(ROWS_G, count)
        for turn, either in enumerate(by_either(ROWS_G)):
            yield "no 26 0", Lookups(either, pairs, turn, turn, 2 * turn)
        for place in range(3):
            # 64 places are enough for 64 pairs, and not for 65.
            for places in (64, count - 1, 0):
                short = [places - count if k == place else 0 for k in range(3)]
                yield "no 1 0", Lookups(slot, pairs, *short)


def wrong_slots():
    """Slots that are refused, with pairs right and wrong and with none: due and call."""
    slot = whole_slot(0, 11280, ROWS_G)
    # Bytes of the slot: the header, and of each row mark, group, frames and value.
    faults = [("no 11 0", 0, 0x51), ("no 11 0", 1, 0x49), ("no 11 0", 1, 0x43), ("no 17 0", 1, 0x53),
              ("no 12 0", 2, 5), ("no 12 0", 2, 255), ("no 13 0", 3, 65), ("no 13 0", 3, 255),
              ("no 14 4", 3, 5), ("no 14 4", 3, 64), ("no 17 0", 3, 3), ("no 17 0", 3, 0),
              ("no 17 0", 56, 1), ("no 17 0", 400, 128), ("no 17 0", 767, 1)]
    for row in range(4):
        at = 12 + 11 * row
        faults += [(f"no 14 {row}", at, 0x51), (f"no 14 {row}", at + 1, 0x53),
                   (f"no 15 {row}", at + 2, 8), (f"no 15 {row}", at + 4, 1),
                   (f"no 15 {row}", at + 9, 2)]
    # The row before ends at or behind this one's first frame, or is of a later group.
    faults += [("no 16 1", 26, 1), ("no 16 2", 37, 6), ("no 16 1", 14, 1), ("no 16 3", 36, 2)]
    eight = [(group, 2) for group in range(8)]
    bad = eight[:4] + [(8, 2)] + eight[5:]
    for due, place, byte in faults:
        damaged = with_byte(slot, place, byte)
        for pairs in (eight, [], bad, so_many(ROWS_G, 65), bad * 9):
            yield due, Lookups(damaged, pairs, values=1)
        yield "no 1 0", Lookups(damaged, eight, values=-1)
    # An error under the header of windows, and the last row of 64.
    yield "no 17 0", Lookups(whole_slot(0, 1, ROWS_G, b"PS"), [])
    yield "no 17 0", Lookups(whole_slot(0, 2 ** 56, BEATS_G, b"PS"), bad)
    full = whole_slot(0, 0, EIGHT_GROUPS)
    for due, place in (("no 14 63", 705), ("no 15 63", 707), ("no 16 63", 694), ("no 17 0", 716)):
        damaged = with_byte(full, place, 8 if place == 707 else 7)
        if place == 694:
            # The last row but one ends with the last row's first frame.
            damaged = with_byte(with_byte(full, 699, 210), 700, 0)
        yield due, Lookups(damaged, eight)
        yield due, Lookups(damaged, [])
    # Short slots, and longer ones, whose later bytes are any.
    later = bytes((7 * k + 1) % 256 for k in range(300))
    for pairs in ([], eight, bad, so_many(ROWS_G, 65)):
        for length in (0, 1, 12, 767):
            yield "no 1 0", Lookups(slot[:length], pairs)
    for length in (1, 2, 11, 300):
        yield None, Lookups(slot + later[:length], eight)
        yield "no 7 4", Lookups(slot + later[:length], bad)
        yield "no 17 0", Lookups(with_byte(slot, 767, 1) + later[:length], eight)


# The questions of many lookups in their order, 1 of each thing that is lent.
LOOKUPS_ORDER = ["slot", "frames", "values", "covered", 11, 12, 13, 14, 15, 16, 17, 26, 7]


def lookups_with(faults):
    """A call that gets 'no' to these questions. Of damaged rows it is the second, of pairs the third."""
    slot = whole_slot(0, 11280, ROWS_G)
    bytes_of = {11: (0, 0x51), 12: (2, 5), 13: (3, 65), 14: (23, 0x51), 15: (32, 2), 16: (26, 1),
                17: (767, 1)}
    for fault in faults & bytes_of.keys():
        slot = with_byte(slot, *bytes_of[fault])
    pairs = so_many(ROWS_G, 65 if 26 in faults else 8)
    if 7 in faults:
        pairs[2] = (8, 2)
    lengths = [-1 if name in faults else 0 for name in LOOKUPS_ORDER[1:4]]
    return Lookups(slot[:767] if "slot" in faults else slot, pairs, *lengths)


def lookups_in_order():
    """Each question's 'no' alone, and with each later question's: due and call."""
    for place, fault in enumerate(LOOKUPS_ORDER):
        number = fault if isinstance(fault, int) else 1
        index = {14: 1, 15: 1, 16: 1, 7: 2}.get(number, 0)
        for later in LOOKUPS_ORDER[place:]:
            yield f"no {number} {index}", lookups_with({fault, later})
        yield f"no {number} {index}", lookups_with(set(LOOKUPS_ORDER[place:]))


def lookups_at_random():
    """Calls on slots with rows at random, of any number of pairs, with faults here and there."""
    numbers = random.Random(10)
    for _ in range(120):
        rows, frame, group = [], 0, numbers.randint(0, 2)
        for _ in range(numbers.choice((0, 1, 3, 8, 20))):
            if numbers.randrange(4) == 0 and group < 7:
                group, frame = group + 1, 0
            first = frame + numbers.choice((0, 0, 1, 2, 300))
            frame = first + numbers.choice((1, 1, 2, 5, 1000))
            rows.append((group, first, frame - 1, numbers.choice((0, 1, 999, 128000))))
        header = numbers.choice((b"PH", b"PS"))
        slot = whole_slot(numbers.choice(KINDS), 0, rows, header)
        if numbers.randrange(10) == 0:
            slot = with_byte(slot, numbers.randrange(4, 768), numbers.randrange(256))
        count = numbers.choice((1, 2, 8, 8, 8, numbers.randint(0, 70), numbers.randint(60, 64)))
        pairs = numbers.choices(at_edges(rows), k=count)
        if pairs and numbers.randrange(5) == 0:
            for _ in range(numbers.choice((1, 1, 2))):
                place = numbers.randrange(count)
                pairs[place] = (numbers.choice((8, 9, 255)), pairs[place][1])
        lengths = [numbers.choice((0, 0, 0, 0, 0, 0, 1, 3, 12, -1)) for _ in range(3)]
        yield None, Lookups(slot, pairs, *[max(length, -count) for length in lengths])


def lookups_calls():
    """Calls of many lookups: what is due where it is known by the way the call was made, and the call."""
    for call in accepted_lookups():
        assert refused(call.questions()) is None
        yield None, call
    yield from bad_groups()
    yield from wrong_lists()
    yield from wrong_slots()
    yield from lookups_in_order()
    yield from lookups_at_random()


LOOKUPS_HEAD = """\
# Many lookups as a set and their answers, made by tools/expected.py --lookups. A line is
#     LENGTH SLOT GROUPS FRAMES VALUES COVERED: ANSWER
# LENGTH is the slot's length in bytes, and SLOT its bytes up to the zeros at its end, in hexadecimal;
# GROUPS are bytes in hexadecimal and FRAMES numbers, - if there are none. VALUES and COVERED are how many
# places the two lists have. Before the call place k, from 0, of the values holds 4,294,967,295 - k and of
# the flags 2 + k mod 254. ANSWER is 'no', number and index, and then both lists are as they were; or all
# places of the values and, in hexadecimal, all of the flags, - if there are none.
"""


def lookups_lines():
    """The lines of the file of many lookups, each once."""
    lines = {}
    met = set()
    for due, call in lookups_calls():
        words = call.words()
        if words not in lines:
            answer = lines[words] = call.answer()
            count = len(call.groups)
            if answer.startswith("no "):
                _, number, index = answer.split()
                met.add(("no", int(number), int(index)))
                met.add((int(number), "pairs", count))
            else:
                met.add(("pairs", count))
                met.add(("header", call.slot[1]))
                met.add(("rows", call.slot[3]))
                met |= {("flag", flag, value > 0) for flag, value in
                        zip(bytes.fromhex(answer.split()[1].strip("-")), [
                            int(value) for value in answer.split()[0].split(",") if value != "-"])}
                met |= {("later", name) for name in ("frames", "values", "covered")
                        if len(getattr(call, name)) > count}
        assert due in (None, lines[words]), (words, due, lines[words])
    owed = {("no", number, 0) for number in (1, 11, 12, 13, 17, 26)}
    owed |= {("no", number, index) for number in (14, 15) for index in (0, 1, 2, 3, 63)}
    owed |= {("no", 16, index) for index in (1, 2, 3, 63)}
    owed |= {("no", 7, index) for index in range(64)}
    owed |= {("pairs", count) for count in range(65)} | {("header", byte) for byte in b"HS"}
    owed |= {(26, "pairs", count) for count in (65, 66, 200)}
    owed |= {(number, "pairs", count) for number in (11, 12, 13, 14, 15, 16, 17) for count in (0, 65)}
    owed |= {("rows", 0), ("rows", 64), ("flag", 1, True), ("flag", 1, False), ("flag", 0, False)}
    owed |= {("later", name) for name in ("frames", "values", "covered")}
    assert owed <= met, owed - met
    assert ("flag", 0, True) not in met and not any(("pairs", count) in met for count in range(65, 400))
    return [f"{words}: {answer}\n" for words, answer in lines.items()]


def check_halves():
    """With the lower number at a half, the same cases are refused, and the others have the same
    error, the same cuts weighed and rows of the same frames. A value is one less at a half, and
    elsewhere, and by the kind of the greatest load, the same. Every other kind has halves."""
    risen = dict.fromkeys(KINDS, 0)
    for data in itertools.chain(played_through(), published(), halves(), at_random()):
        kind, rule, bound, log = data[0], data[1], whole(data[2:4]), data[4:]
        if not all(yes for _, _, yes in questions(kind, rule, bound, log)):
            continue
        segments = segments_of(log, kind)
        now = reduction(segments, kind, rule, bound)
        before = reduction(segments, kind, rule, bound, lower_nearest)
        assert (now is None) == (before is None)
        if now is None:
            continue
        assert now[1:] == before[1:]
        assert [row[:3] for row in now[0]] == [row[:3] for row in before[0]]
        for (group, first, last, value), (_, _, _, lower) in zip(now[0], before[0]):
            block = [each for each in segments if each[0] == group and first <= each[1] <= last]
            total = sum((to - begin + 1) * load for _, begin, to, load in block)
            mean = Fraction(total, last - first + 1)
            at_half = kind != GREATEST and mean.denominator == 2
            assert value == lower + at_half
            risen[kind] += at_half
    assert all((risen[kind] > 0) == (kind != GREATEST) for kind in KINDS), risen


def check_twins():
    """A log has twins exactly if the call for logs on file leaves something out, and what it keeps
    has none. Otherwise the two are asked the same."""
    left_out = 0
    for log in dict.fromkeys(data[4:] for data in all_cases()):
        first_no = next(((number, index) for number, index, yes in log_questions(log) if not yes),
                        None)
        kept = without_twins(log, len(log))
        if isinstance(kept, bytes):
            assert all(yes for _, _, yes in log_questions(kept))
            assert sorted(set(nines_of(kept))) == sorted(nines_of(kept))
            assert set(nines_of(kept)) == set(nines_of(log))
            if kept == log:
                assert first_no is None
            else:
                # Up to the twin that is refused, nothing is left out.
                number, index = first_no
                assert number == 21 and kept[:9 * index] == log[:9 * index]
                assert log[9 * index:][:9] in nines_of(kept[:9 * index])
                left_out += 1
        else:
            # Of two bad records, or of a bad one and a twin, the earlier one is refused.
            assert first_no == kept[1:] or (first_no[0] == 21 and first_no[1] < kept[2])
    assert left_out > 30, left_out


def check_known():
    """The numbers that the paper prints."""
    g = log_of(LOG_G)
    assert g[:9] == bytes.fromhex("4C4400000003006400")
    assert profile(case(0, ROWS, 4, g)) == (
        "4 11280 16\n0 0 1 100\n0 2 6 242\n0 9 10 50\n1 0 0 7\n")
    assert segments_of(g, 0) == [[0, 0, 1, 100], [0, 2, 3, 300], [0, 4, 5, 200],
                                 [0, 6, 6, 210], [0, 9, 10, 50], [1, 0, 0, 7]]
    start = {c: profile(case(0, ROWS, c, g)).split()[:2] for c in (3, 5, 6, 64)}
    assert start == {3: ["3", "40087"], 5: ["5", "67"], 6: ["6", "0"], 64: ["6", "0"]}
    assert profile(case(0, ROWS, 2, g)) == "no 10 0\n"
    assert profile(case(0, SHARE, 281, g)).startswith("5 67 ")
    assert profile(case(0, SHARE, 282, g)).startswith("4 11280 ")
    assert profile(case(0, ROWS, 2, log_of(frames([0, 1, 2, 100])))).split()[2] == "5"
    # Means in hundredths, rounded down. The means of G are cut at another frame than its sums.
    assert [aggregate(4, loads) for loads in ([1, 2], [0, 0, 1], [0, 1, 1], [0, 1000])] == [
        150, 33, 66, 50000]
    assert profile(case(4, ROWS, 4, g)) == (
        "4 25666667 16\n0 0 3 12500\n0 4 6 20333\n0 9 10 5000\n1 0 0 700\n")
    # Halves go up, and nothing else does. Means of 1/2, 127,999.5 and 16.5, in several rows.
    assert [nearest(Fraction(*mean)) for mean in ((1, 2), (3, 2), (1, 3), (2, 3), (5, 1))] == [
        1, 2, 0, 1, 5]
    assert profile(case(0, ROWS, 1, log_of(frames([0, 1])))) == "1 1 0\n0 0 1 1\n"
    large = profile(case(0, ROWS, 22, log_of(crowd(127, 3) + [(3, 12, 2010, 1000)]))).split("\n")
    assert large[0].startswith("22 1000000 ") and "3 11 2010 128000" in large
    counts = profile(case(1, ROWS, 22, log_of(crowd(127, 3, core=2) + [(3, 12, 12, 1)])))
    assert counts.startswith("22 1 ") and "3 11 12 128" in counts.split("\n")
    assert profile(case(4, ROWS, 1, log_of([(0, 0, 1, 0), (0, 0, 0, 0), (0, 0, 0, 1)]))) == (
        "1 545 0\n0 0 1 17\n")
    several = profile(case(0, ROWS, 3, log_of(frames([0, 1, 500, 501, 900, 907])))).split("\n")
    assert several[0].startswith("3 27 ") and several[1:4] == ["0 0 1 1", "0 2 3 501", "0 4 5 904"]
    # Rows of the greatest load, and shares of their own least error.
    assert profile(case(GREATEST, ROWS, 1, log_of(frames([0, 1])))) == "1 1 0\n0 0 1 1\n"
    assert profile(case(GREATEST, ROWS, 1, log_of(frames([0, 0, 0, 9, 9])))) == "1 243 0\n0 0 4 9\n"
    assert profile(case(GREATEST, ROWS, 3, g)).startswith("3 24600 ")
    assert reduction(segments_of(g, GREATEST), 0, ROWS, 3)[1] == 14943
    rows = {p: profile(case(GREATEST, SHARE, p, g)).split()[0] for p in (16, 17, 26)}
    assert rows == {16: "5", 17: "4", 26: "4"} and 400 * 1000 > 26 * 14943
    # The published span aggregation, in hundredths: A 500 and 350, B 500 and 500.
    trimesters = [(0, 1, 4, 50000), (0, 5, 8, 35000), (1, 1, 4, 50000), (1, 5, 8, 50000)]
    for rule in (Beats(4, 1), Scenes([1, 5], [4, 8])):
        assert list(window_rows(log_of(SALARIES), 4, rule.windows()[:2])) == trimesters
    assert [list(window)[-1] for window in Beats(65535, 0).windows()] == [65534, 65535]
    assert len(Beats(1, 0).windows()) == 65536
    assert windows_answer(0, Beats(65535, 6), g) == (
        "505300010000000000000000" "505200" "0600" "ffff" "04010000")
    # Twins: a record of G once more is refused as the sixth, and is all that is left out. The sum
    # of a record that stands twice is not doubled any more.
    for again in nines_of(g):
        assert profile(case(0, ROWS, 4, g + again)) == "no 21 5\n"
        assert profile(case(3, ROWS, 0, again + g)).startswith("no 21 ")
        assert windows_answer(0, Beats(1, 0), g + again) == "no 21 5"
        assert without_twins(g + again, 54) == g
    assert profile(case(0, ROWS, 4, g[:9] * 3)) == "no 21 1\n"
    assert profile(case(0, ROWS, 4, without_twins(g[:9] * 3, 27))) == "1 0 0\n0 0 3 100\n"
    assert profile(case(0, ROWS, 4, g[:9] + record(8, 0, 3, 100) + g[:9])) == "no 7 1\n"
    assert profile(case(0, ROWS, 4, g[:9] + g[:9] + record(8, 0, 3, 100))) == "no 21 1\n"
    assert profile(case(0, ROWS, 4, 2 * record(8, 0, 3, 100))) == "no 7 0\n"
    assert windows_answer(0, Beats(1, 0), log_of([(0, 0, 64, 1)] * 2)) == "no 21 1"
    assert windows_answer(0, Beats(1, 0), log_of([(0, 0, 64, 1), (0, 0, 64, 2)])) == "no 20 0"
    a, b, c, d, e = nines_of(g)
    assert without_twins(b + a + b + c + a + e, 54) == b + a + c + e
    assert without_twins(b"", 0) == b"" and without_twins(g + d, 53) == ("no", 1, 0)
    assert without_twins(g + d + record(0, 4, 3, 7), 63) == ("no", 8, 6)
    assert all(without_twins(ANY_BYTE + other, 18) == ANY_BYTE + other for other in one_byte_off())
    # A slot against its log: G's four rows, an error beside theirs, a row of kind 3 one below.
    four = [(0, 0, 1, 100), (0, 2, 6, 242), (0, 9, 10, 50), (1, 0, 0, 7)]
    assert check_answer(g, whole_slot(0, 11280, four)) == "yes"
    assert check_answer(g, whole_slot(0, 11279, four)) == "no 24 0"
    assert check_answer(g, whole_slot(0, 0, four[:3])) == "no 22 0"
    assert check_answer(g, whole_slot(0, 2 ** 64 - 1, four)[:767]) == "no 1 0"
    for value, error, answer in ((210, 400, "yes"), (211, 485, "yes"), (209, 325, "no 23 0")):
        rows = [four[0], (0, 2, 6, value), *four[2:]]
        assert check_answer(g, whole_slot(GREATEST, error, rows)) == answer
        assert check_answer(g[9:] + g[:9], whole_slot(GREATEST, error, rows)) == answer
    # G with a memory of three frames, of which its second gap is closed, and of two, of which it is not;
    # a slot is of its own width; records that end at frames of their own are no twins at the last one.
    assert remembered_segments(g, 0, 3) == [[0, 0, 1, 100], [0, 2, 5, 300], [0, 6, 7, 410],
                                            [0, 8, 8, 210], [0, 9, 12, 50], [1, 0, 2, 7]]
    assert remembered_segments(g, 0, 2)[4:] == [[0, 7, 7, 210], [0, 9, 11, 50], [1, 0, 1, 7]]
    four = [(0, 0, 1, 100), (0, 2, 8, 319), (0, 9, 12, 50), (1, 0, 2, 7)]
    assert MemoryQuery(0, ROWS, 4, 3, g).reduced()[:2] == (four, 29887)
    assert [MemoryQuery(0, ROWS, c, 3, g).reduced()[1] for c in (2, 3, 5, 6)] == [238232, 104200, 16134, 0]
    assert [MemoryQuery(0, SHARE, p, 3, g).reduced()[1] for p in (125, 126)] == [16134, 29887]
    for width, answer in ((3, "yes"), (2, "no 22 0"), (4, "no 22 0"), (0, "no 25 0")):
        assert MemoryCheck(width, g, whole_slot(0, 29887, four)).answer() == answer
    pair = log_of([(4, 65000, 65533, 7), (4, 65000, 65534, 7)])
    assert remembered_segments(pair, 0, 3) == [[4, 65000, 65535, 14]]
    assert remembered_segments(pair, 0, 2) == [[4, 65000, 65534, 14], [4, 65535, 65535, 7]]
    # Many lookups: eight groups of G's four rows for frame 0 into lists of nine places, the refusal of the
    # fifth pair, and the order of the questions.
    slot = whole_slot(0, 11280, ROWS_G)
    assert ROWS_G == reduction(segments_of(g, 0), 0, ROWS, 4)[0]
    assert BEATS_G == list(itertools.islice(window_rows(g, 0, Beats(4, 0).windows()), 65))
    eight = [(group, 0) for group in range(8)]
    assert Lookups(slot, eight, values=1, covered=1).answer() == (
        "100,7,0,0,0,0,0,0,4294967287 01010000000000000a")
    assert Lookups(slot, eight[:4] + [(8, 0)] + eight[5:]).answer() == "no 7 4"
    assert Lookups(slot, [(0, frame) for frame in range(12)]).answer() == (
        "100,100,242,242,242,242,242,0,0,50,50,0 010101010101010000010100")
    assert Lookups(slot, []).answer() == "- -" and Lookups(slot[:767], []).answer() == "no 1 0"
    assert [Lookups(slot, [(8, 0)] * 65, *[places - 65] * 3).answer() for places in (64, 65)] == [
        "no 1 0", "no 26 0"]
    assert Lookups(with_byte(slot, 767, 1), [(8, 0)] * 65).answer() == "no 17 0"
    # The published reductions: first and last frames are the same, and a row value is the whole
    # number nearest to the published mean, of which 467.5 is one.
    assert profile(case(0, ROWS, 4, log_of(PROJ))).split("\n")[1:5] == [
        "0 1 3 733", "0 4 7 375", "1 4 5 500", "1 7 8 500"]
    assert segments_of(log_of(PATIENTS), 0) == [
        [0, 1, 2, 1000], [0, 3, 3, 600], [0, 4, 4, 900], [0, 5, 6, 350], [0, 7, 7, 300],
        [0, 9, 12, 300], [1, 1, 5, 500], [1, 6, 6, 200], [1, 7, 8, 520]]
    assert profile(case(0, ROWS, 5, log_of(PATIENTS))).split("\n")[1:6] == [
        "0 1 2 1000", "0 3 4 750", "0 5 7 333", "0 9 12 300", "1 1 8 468"]
    assert profile(case(0, ROWS, 4, log_of(PATIENTS))).split("\n")[1:5] == [
        "0 1 4 875", "0 5 7 333", "0 9 12 300", "1 1 8 468"]


def main(words):
    check_known()
    if len(words) == 1 and not words[0].startswith("--"):
        with open(words[0], "rb") as file:
            sys.stdout.write(profile(file.read()))
        return 0
    if len(words) == 3 and words[0] == "--cases":
        cases = all_cases()
        check_halves()
        check_twins()
        data = b"".join(len(one).to_bytes(2, "little") + one for one in cases)
        if len(data) >= 262144:
            print("the file of cases is too long", file=sys.stderr)
            return 1
        with open(words[1], "wb") as file:
            file.write(data)
        with open(words[2], "w", encoding="ascii", newline="\n") as file:
            file.writelines(profile(one) for one in cases)
        print(f"{len(cases)} cases, {len(data)} bytes", file=sys.stderr)
        return 0
    listed = {
        "--windows": (WINDOWS_HEAD, windows_lines, "queries by windows"),
        "--twins": (TWINS_HEAD, twins_lines, "logs on file"),
        "--check": (CHECK_HEAD, check_lines, "slots with their logs"),
        "--memory": (MEMORY_HEAD, memory_lines, "calls with a memory"),
        "--lookups": (LOOKUPS_HEAD, lookups_lines, "calls of many lookups"),
    }
    if len(words) == 2 and words[0] in listed:
        head, lines_of, name = listed[words[0]]
        lines = lines_of()
        with open(words[1], "w", encoding="ascii", newline="\n") as file:
            file.write(head)
            file.writelines(lines)
        print(f"{len(lines)} {name}", file=sys.stderr)
        return 0
    if len(words) == 3 and words[0] == "--order":
        both = order_lines()
        for name, lines in zip(words[1:], both):
            with open(name, "w", encoding="ascii", newline="\n") as file:
                file.write(ORDER_HEAD)
                file.writelines(lines)
        print(f"{len(both[0])} calls in two orders", file=sys.stderr)
        return 0
    print(__doc__, file=sys.stderr)
    return 2


if __name__ == "__main__":
    sys.exit(main(sys.argv[1:]))
