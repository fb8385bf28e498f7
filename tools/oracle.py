"""An independent reckoning of paper 01 and of paper 02's cards 1, 2, 4, 5 and 6 in whole numbers and fractions, to hold the
programs against.

    python3 tools/oracle.py cases > crates/cases/stdout
    python3 tools/oracle.py files > crates/files/stdout
    python3 tools/oracle.py file-cases > crates/files/stdin
    python3 tools/oracle.py plates > crates/plates/stdout
    python3 tools/oracle.py logbooks > crates/logbooks/stdout
    python3 tools/oracle.py logbook-cases > crates/logbooks/stdin
    python3 tools/oracle.py inventories > crates/inventories/stdout
    python3 tools/oracle.py inventory-cases > crates/inventories/stdin
    python3 tools/oracle.py indicators > crates/indicators/stdout
    python3 tools/oracle.py indicator-cases > crates/indicators/stdin
    python3 tools/oracle.py sample-texts    (writes samples/*.placard and samples/*.equipment)
    python3 tools/oracle.py programs    (writes stdin and stdout of placard, full_file, long_file, full_plate, show, equipment,
                                         logbook_to_record)

A journal is the tuple of the entries accepted so far. A call takes a journal and answers its number, 0 where it is
accepted, and the journal afterwards.
"""

import sys
from fractions import Fraction
from typing import NamedTuple

# Weights are grams, arms hundredths of a millimetre. A balance is in half grams, since it sums two readings.
HALVES = 2
MOST_WEIGHT = 2_000_000
MOST_ARM = 2_000_000
MOST_SEAT_LOAD = 500_000
MOST_ROWS = 256
MOST_ENTRIES = 64

# Numbers of refusal.
READING, ARM, NONLIFTING, SHEET, ROWS, CHANGE = 1, 2, 3, 4, 5, 6
UNWEIGHED, NO_SHEET, FULL, BARE, SHORT, FILE = 7, 8, 9, 10, 11, 12
UNSTEADY, LOAD = 13, 14


# The entries, their fields in the order of the file.


class Weighing(NamedTuple):
    m: int
    p: int
    q: int
    a: int
    b: int
    n: int


class Paired(NamedTuple):
    m: int
    p: int
    q: int
    p2: int
    q2: int
    a: int
    b: int
    n: int


class Sheet(NamedTuple):
    fwd: int
    aft: int
    dry: int
    wet: int
    nlp: int
    front_arm: int
    least_front: int
    greatest_front: int
    front_step: int
    rear_arm: int
    greatest_rear: int
    rear_step: int
    water_arm: int
    capacity: int
    water_step: int


class Change(NamedTuple):
    c: int
    arm: int
    flag: int


class Seat(NamedTuple):
    lower: int
    higher: int


def is_weight(x):
    return 0 <= x <= MOST_WEIGHT


def is_arm(x):
    return -MOST_ARM <= x <= MOST_ARM


def is_total(x):
    """A total in grams."""
    return 1 <= x <= MOST_WEIGHT


# What stands in a journal.


class Balance(NamedTuple):
    """G, M and n: of one reading in grams, of a journal in half grams."""

    total: int
    moment: int
    nonlifting: int


def readings(entry):
    """The two weighings that count together; a plain one counts as a pair of equals."""
    if isinstance(entry, Weighing):
        return entry, entry
    return (
        Weighing(entry.m, entry.p, entry.q, entry.a, entry.b, entry.n),
        Weighing(entry.m, entry.p2, entry.q2, entry.a, entry.b, entry.n),
    )


def read_balance(w):
    """What one reading says, by one of the four methods, in grams."""
    if w.m == 1:
        return Balance(w.p, w.p * w.a + w.q * w.b, w.n)
    if w.m == 2:
        return Balance(w.p, (w.p - w.q) * w.b - w.p * w.a, w.n)
    if w.m == 3:
        total = w.p + w.q
        return Balance(total, w.q * w.b - total * w.a, w.n)
    total = w.p - w.q
    return Balance(total, total * w.a - w.q * w.b, w.n)


def weighed_balance(entry):
    """The sums over both readings, in half grams."""
    return Balance(*map(sum, zip(*map(read_balance, readings(entry)))))


def changed_balance(balance, x):
    c = HALVES * x.c
    nonlifting = balance.nonlifting + (c if x.flag == 1 else 0)
    return Balance(balance.total + c, balance.moment + c * x.arm, nonlifting)


def last_weighing(journal):
    """The last weighing, plain or paired, and the changes behind it, or None."""
    places = [i for i, entry in enumerate(journal) if isinstance(entry, (Weighing, Paired))]
    if not places:
        return None
    weighing, *behind = journal[places[-1] :]
    return weighing, [entry for entry in behind if isinstance(entry, Change)]


def balance_of(journal):
    """The last weighing with the changes behind it, or None."""
    last = last_weighing(journal)
    if last is None:
        return None
    balance = weighed_balance(last[0])
    for x in last[1]:
        balance = changed_balance(balance, x)
    return balance


def sheet_in_force(journal):
    """The last sheet, or None."""
    sheets = [entry for entry in journal if isinstance(entry, Sheet)]
    return sheets[-1] if sheets else None


def seat_in_force(journal):
    """The last seat behind the last sheet; where there is none both ends are that sheet's front arm. None without a sheet."""
    for entry in reversed(journal):
        if isinstance(entry, Seat):
            return entry
        if isinstance(entry, Sheet):
            return Seat(entry.front_arm, entry.front_arm)
    return None


def row_count(s):
    return (s.greatest_rear // s.rear_step + 1) * (s.capacity // s.water_step + 1)


# The number that an entry gets: the first in its call's order, or 0.


def is_reading(w):
    if w.m not in (1, 2, 3, 4) or not is_weight(w.p) or not is_weight(w.q):
        return False
    if w.m in (1, 2) and w.q > w.p:
        return False
    return is_total(read_balance(w).total)


def weighing_number(journal, entry):
    """Plain or paired: by number, and not reading by reading."""
    if len(journal) == MOST_ENTRIES:
        return FULL
    if not all(map(is_reading, readings(entry))):
        return READING
    if not is_arm(entry.a) or not 1 <= entry.b <= MOST_ARM:
        return ARM
    if not 0 <= entry.n <= min(read_balance(w).total for w in readings(entry)):
        return NONLIFTING
    return 0


def sheet_number(journal, s):
    if len(journal) == MOST_ENTRIES:
        return FULL
    if not all(map(is_arm, (s.fwd, s.aft, s.front_arm, s.rear_arm, s.water_arm))):
        return ARM
    in_range = (
        s.fwd < s.aft
        and all(map(is_weight, (s.dry, s.wet, s.nlp, s.capacity)))
        and 1 <= s.dry <= s.wet
        and 0 <= s.least_front <= s.greatest_front <= MOST_SEAT_LOAD
        and 0 <= s.greatest_rear <= MOST_SEAT_LOAD
    )
    if not in_range:
        return SHEET
    steps_in_range = (
        1 <= s.front_step <= MOST_SEAT_LOAD
        and 1 <= s.rear_step <= MOST_SEAT_LOAD
        and 1 <= s.water_step <= MOST_WEIGHT
    )
    if not steps_in_range or row_count(s) > MOST_ROWS:
        return ROWS
    return 0


def change_number(journal, x):
    if len(journal) == MOST_ENTRIES:
        return FULL
    balance = balance_of(journal)
    if balance is None:
        return UNWEIGHED
    if not is_arm(x.arm):
        return ARM
    if x.c == 0 or abs(x.c) > MOST_WEIGHT or x.flag not in (0, 1):
        return CHANGE
    after = changed_balance(balance, x)
    if not HALVES <= after.total <= HALVES * MOST_WEIGHT:
        return CHANGE
    if not 0 <= after.nonlifting <= after.total:
        return NONLIFTING
    return 0


def seat_number(journal, f):
    if len(journal) == MOST_ENTRIES:
        return FULL
    if sheet_in_force(journal) is None:
        return NO_SHEET
    if not is_arm(f.lower) or not is_arm(f.higher) or f.higher < f.lower:
        return ARM
    return 0


NUMBER_OF = {Weighing: weighing_number, Sheet: sheet_number, Change: change_number, Paired: weighing_number, Seat: seat_number}


# The calls.


def add(journal, entry):
    """A weighing, a sheet, a change, a paired weighing or a seat."""
    number = NUMBER_OF[type(entry)](journal, entry)
    return (number, journal) if number else (0, journal + (entry,))


def undo(journal):
    """Taking back."""
    return (0, journal[:-1]) if journal else (BARE, journal)


def centre_of_gravity(journal):
    """Number, total and moment in half grams, and centre; the centre is the floor of M/G + 1/2."""
    balance = balance_of(journal)
    if balance is None:
        return UNWEIGHED, 0, 0, 0
    total, moment = balance.total, balance.moment
    return 0, total, moment, (2 * moment + total) // (2 * total)


# Weighing by an indicator. A float is the pattern of its 64 bits; what it is worth is reckoned in fractions.

MOST_LOAD = 2000
STABLE, MOVING, OVER = 1, 2, 3
MESSAGE_LENGTH = 9


class Cell(NamedTuple):
    """The floats of its rated kilograms and of its zero."""

    rated: int
    zero: int


class Message(NamedTuple):
    """The bytes of a reading, and the cell that it is of."""

    data: bytes
    cell: Cell


class Indicated(NamedTuple):
    """A paired weighing with a message for each reading."""

    m: int
    p: Message
    q: Message
    p2: Message
    q2: Message
    a: int
    b: int
    n: int


def worth(pattern):
    """The number that a pattern stands for, or None for an infinity or a NaN."""
    negative, exponent, digits = pattern >> 63, (pattern >> 52) % 2048, pattern % 2**52
    if exponent == 2047:
        return None
    size = Fraction(2**52 * (exponent > 0) + digits) * Fraction(2) ** (max(exponent, 1) - 1075)
    return -size if negative else size


def is_load(kilograms):
    return kilograms is not None and 0 <= kilograms <= MOST_LOAD


def in_grams(kilograms):
    """To the nearest whole gram, from a tie to the even one."""
    return round(1000 * kilograms)


def is_steady(message):
    return len(message.data) == MESSAGE_LENGTH and message.data[0] == STABLE


def net_of(message, turned):
    """The grams of a steady reading less those of its zero, or the other way round; None where the rating, the reading or the
    zero is out of range, or what is left is below nought."""
    reading, rated, zero = map(worth, (int.from_bytes(message.data[1:], "big"), *message.cell))
    if rated is None or not is_load(reading) or not is_load(zero) or reading > rated:
        return None
    loaded, empty = in_grams(reading), in_grams(zero)
    net = empty - loaded if turned else loaded - empty
    return net if net >= 0 else None


def indicate(journal, x):
    """What is asked of its four readings comes before what is asked of the paired weighing that they feed."""
    held_down = x.m == 4
    messages = ((x.p, False), (x.q, held_down), (x.p2, False), (x.q2, held_down))
    if not all(is_steady(message) for message, _ in messages):
        return UNSTEADY, journal
    nets = [net_of(message, turned) for message, turned in messages]
    if None in nets:
        return LOAD, journal
    return add(journal, Paired(x.m, *nets, x.a, x.b, x.n))


# The file.

# The version that is written, and the last kind of entry that each version has.
VERSION = 2
LAST_KIND = {1: 3, 2: 5}
KINDS = {1: Weighing, 2: Sheet, 3: Change, 4: Paired, 5: Seat}
KIND_OF = {kind: number for number, kind in KINDS.items()}
IN_ONE_BYTE = {"m", "flag"}
SIGNED = {"a", "fwd", "aft", "front_arm", "rear_arm", "water_arm", "c", "arm", "lower", "higher"}


def width(field):
    return 1 if field in IN_ONE_BYTE else 4


def entry_bytes(entry):
    """The kind, and each field at its width."""
    spelled = [value.to_bytes(width(field), "big", signed=field in SIGNED) for field, value in entry._asdict().items()]
    return bytes([KIND_OF[type(entry)]]) + b"".join(spelled)


def entry_from(kind, spelled):
    """The entry of a kind by the bytes of its fields, all of them."""
    fields = {}
    for field in kind._fields:
        own, spelled = spelled[: width(field)], spelled[width(field) :]
        fields[field] = int.from_bytes(own, "big", signed=field in SIGNED)
    return kind(**fields)


def file_of(journal, version=VERSION):
    rest = bytes([version, len(journal)]) + b"".join(map(entry_bytes, journal))
    return len(rest).to_bytes(4, "big") + rest


def entries_of(data):
    """The entries of bytes that are laid out as a file, or None: the whole is taken apart before it is counted."""
    if len(data) < 6 or int.from_bytes(data[:4], "big") != len(data[4:]) or data[4] not in LAST_KIND:
        return None
    entries, rest = [], data[6:]
    while rest:
        kind = KINDS.get(rest[0]) if rest[0] <= LAST_KIND[data[4]] else None
        end = 1 + sum(map(width, kind._fields)) if kind else 0
        if not kind or len(rest) < end:
            return None
        entries.append(entry_from(kind, rest[1:end]))
        rest = rest[end:]
    return entries if len(entries) == data[5] else None


def write(journal, buffer):
    """Number, length and the buffer afterwards."""
    data = file_of(journal)
    if len(buffer) < len(data):
        return SHORT, 0, buffer
    return 0, len(data), data + buffer[len(data) :]


def read(journal, data):
    """Reading back: the entries in turn from an empty journal."""
    entries = entries_of(data)
    if entries is None:
        return FILE, journal
    found = ()
    for entry in entries:
        number, found = add(found, entry)
        if number:
            return FILE, journal
    return 0, found


# A row.


def keeps_with(s, balance, rear, p, v, arm):
    """Whether a front load keeps the lines of limits at an arm of its seat, with v of the water aboard."""
    dry = balance.total + HALVES * (p + rear)
    weight = dry + HALVES * v
    moment = balance.moment + HALVES * (p * arm + rear * s.rear_arm + v * s.water_arm)
    return (
        p >= 1
        and dry <= HALVES * s.dry
        and weight <= HALVES * s.wet
        and (s.nlp == 0 or balance.nonlifting + HALVES * (p + rear) <= HALVES * s.nlp)
        and moment >= s.fwd * weight
        and 20 * moment <= (19 * s.aft + s.fwd) * weight
    )


def all_of(span):
    """Each amount that may be left aboard, or each arm that the pilot may have."""
    return span


def both_ends(span):
    """Those that decide: each line is straight in v, and in the arm. `plates.agreement` holds them against all of them."""
    return sorted({span[0], span[-1]})


def steps(s):
    """The multiples of the front step from least to greatest."""
    return range(-(-s.least_front // s.front_step) * s.front_step, s.greatest_front + 1, s.front_step)


def row(s, seat, balance, rear, water, aboard=both_ends, arms=both_ends):
    """The smallest and the largest load, or None: step by step from either end, every line at each arm with each v."""
    tank, travel = range(water + 1), range(seat.lower, seat.higher + 1)
    tried = [(v, arm) for v in aboard(tank) for arm in arms(travel)]

    def keeps(p):
        return all(keeps_with(s, balance, rear, p, v, arm) for v, arm in tried)

    smallest = next(filter(keeps, steps(s)), None)
    return None if smallest is None else (smallest, next(filter(keeps, reversed(steps(s)))))


# The placard.


def row_loads(s):
    """Rear load and water of each row, water fastest."""
    rears = range(0, s.greatest_rear + 1, s.rear_step)
    waters = range(0, s.capacity + 1, s.water_step)
    return [(rear, water) for rear in rears for water in waters]


def kilograms(grams):
    return f"{grams // 1000:04d}.{grams % 1000:03d}"


def line(rear, water, ends):
    front = map(kilograms, ends) if ends else 2 * ["-" * 8]
    return " ".join([kilograms(rear), kilograms(water), *front]) + "\n"


def placard(journal, buffer):
    """Number, bytes, rows, blank rows and the buffer afterwards."""
    balance, s, seat = balance_of(journal), sheet_in_force(journal), seat_in_force(journal)
    if balance is None:
        return UNWEIGHED, 0, 0, 0, buffer
    if s is None:
        return NO_SHEET, 0, 0, 0, buffer
    length = 36 * row_count(s)
    if len(buffer) < length:
        return SHORT, 0, 0, 0, buffer
    rows = [(*loads, row(s, seat, balance, *loads)) for loads in row_loads(s)]
    text = "".join(line(*each) for each in rows).encode()
    assert (len(rows), len(text)) == (row_count(s), length)
    blank = sum(ends is None for _, _, ends in rows)
    return 0, length, len(rows), blank, text + buffer[length:]


# Equipment by station.


class Station(NamedTuple):
    """What the changes at one arm come to, in grams."""

    arm: int
    weight: int
    nonlifting: int


def station(changes, arm):
    here = [x for x in changes if x.arm == arm]
    return Station(arm, sum(x.c for x in here), sum(x.c for x in here if x.flag == 1))


def stations(changes):
    """Each arm once, the foremost first."""
    return [station(changes, arm) for arm in sorted({x.arm for x in changes})]


def equipment(journal, columns):
    """Number, count of arms and the three columns afterwards."""
    last = last_weighing(journal)
    if last is None:
        return UNWEIGHED, 0, columns
    found = stations(last[1])
    count = len(found)
    if any(len(column) < count for column in columns):
        return SHORT, 0, columns
    filled = zip(*found) if found else ((), (), ())
    return 0, count, [[*front, *column[count:]] for front, column in zip(filled, columns)]


def decimal(number, places):
    """A number of the smallest units, with a point before so many digits and one digit at least before the point."""
    whole, rest = divmod(abs(number), 10**places)
    return f"{'-' if number < 0 else ''}{whole}.{rest:0{places}d}"


def equipment_text(journal):
    """What is printed of a record that was weighed: a line for each arm in millimetres, its net weight and its net
    non-lifting weight in kilograms; and the sums, which are those of the changes."""
    weighing, changes = last_weighing(journal)
    lines = [f"{decimal(arm, 2)} {decimal(c, 3)} {decimal(part, 3)}\n" for arm, c, part in stations(changes)]
    total, nonlifting = sum(x.c for x in changes), sum(x.c for x in changes if x.flag == 1)
    before, after = weighed_balance(weighing), balance_of(journal)
    assert (after.total - before.total, after.nonlifting - before.nonlifting) == (HALVES * total, HALVES * nonlifting)
    return "".join([*lines, f"sum {decimal(total, 3)} {decimal(nonlifting, 3)}\n"])


if __name__ == "__main__":
    sys.dont_write_bytecode = True
    import cases
    import files
    import indicators
    import inventories
    import logbooks
    import plates
    import programs

    reports = {
        "cases": cases.report,
        "files": files.report,
        "file-cases": files.taken,
        "plates": plates.report,
        "logbooks": logbooks.report,
        "logbook-cases": logbooks.cases_taken,
        "inventories": inventories.report,
        "inventory-cases": inventories.taken,
        "indicators": indicators.report,
        "indicator-cases": indicators.taken,
        "sample-texts": logbooks.texts,
        "programs": programs.write,
    }
    if len(sys.argv) != 2 or sys.argv[1] not in reports:
        sys.exit(f"usage: python3 tools/oracle.py {'|'.join(reports)}")
    reports[sys.argv[1]]()
