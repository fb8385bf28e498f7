"""What the program `inventories` takes and prints, by the oracle's reckoning. The lines of both are described in the program's
src/main.rt. Calls are written by the letters of the crate `script`, and its ordinary entries are those of `cases`."""

from cases import BACK, FRESH, PAIRED, SEAT, SECOND, SHEET, WEIGHING, paired, seat, sheet, weighing
from files import G
from oracle import HALVES, MOST_ENTRIES, Change, Paired, Seat, Sheet, Weighing, add, balance_of, equipment, file_of
from oracle import last_weighing, placard, read, undo, weighed_balance
from plates import LAX, drawn, level

# What every element of a column is before the call, and how many behind the lent ones are looked at.
UNWRITTEN, BEHIND = -1000000007, 2

# A program reads its cases in one, so many bytes at the most.
MOST_TAKEN = 65536

# Columns of the longest length, and the most arms.
LONG, MOST_ARMS = 70, 63

# A fresh record; the record's own file into a fresh one; G's file, the same in version 1, and without its last byte.
AFRESH, AGAIN, READ_G, READ_OLD, READ_CUT = "=", "r", "g", "o", "x"
FILES = {READ_G: file_of(G), READ_OLD: file_of(G, version=1), READ_CUT: file_of(G)[:88]}

# Each kind's letter, its ordinary entry and the letters of its fields, and the entries that have a letter of their own.
CHANGE = Change(c=1000, arm=5000, flag=0)
LETTERS = {
    Weighing: ("w", WEIGHING, "mpqabn"),
    Paired: ("p", PAIRED, "mpqPQabn"),
    Sheet: ("s", SHEET, "FADWNalmsbntcou"),
    Change: ("c", CHANGE, "caf"),
    Seat: ("a", SEAT, "lh"),
}
ALONE = {SECOND: "v", level(): "u", LAX: "l"}


def change(**fields):
    return CHANGE._replace(**fields)


def spelled(step):
    """A call by its letter, with the fields that are not the ordinary ones."""
    if step is BACK:
        return "-"
    if isinstance(step, str):
        return step
    if step in ALONE:
        return ALONE[step]
    letter, ordinary, fields = LETTERS[type(step)]
    other = [f"{field}{own}" for field, own, usual in zip(fields, step, ordinary) if own != usual]
    return " ".join([letter, *other])


def called(journal, step):
    """What a call answers."""
    if step == AFRESH:
        return 0, FRESH
    if step == AGAIN:
        return read(FRESH, file_of(journal))
    if step in FILES:
        return read(journal, FILES[step])
    return undo(journal) if step is BACK else add(journal, step)


def nets_hold(journal, columns):
    """The sums of the columns are those of the changes in the order of the logbook."""
    weighing, _ = last_weighing(journal)
    before, after = weighed_balance(weighing), balance_of(journal)
    _, weights, nonlifting = columns
    assert after.total - before.total == HALVES * sum(weights)
    assert after.nonlifting - before.nonlifting == HALVES * sum(nonlifting)


def shown(column):
    return " ".join("_" if element == UNWRITTEN else str(element) for element in column)


class Cases:
    """The lines that a program takes and those that it prints. A case goes on from the record that the one before left."""

    def __init__(self):
        self.journal = FRESH
        self.taken, self.printed = [], []

    def note(self, text):
        self.taken.append(f"# {text}")

    def told_apart(self):
        """The same, where no two labels are alike."""
        labels = [line.split(": ")[0] for line in self.printed]
        assert len(set(labels)) == len(labels), [label for label in labels if labels.count(label) > 1]
        return self

    def print_taken(self):
        text = "".join(f"{line}\n" for line in self.taken)
        assert len(text) <= MOST_TAKEN, len(text)
        print(text, end="")


class Lines(Cases):
    def case(self, label, lengths, *steps):
        """The calls, and then the equipment in columns of these lengths; the last number, and the equipment's."""
        last = 0
        for step in steps:
            last, self.journal = called(self.journal, step)
        lent = [length * [UNWRITTEN] for length in lengths]
        number, count, columns = equipment(self.journal, lent)
        if number == 0:
            nets_hold(self.journal, [column[:count] for column in columns])
        else:
            assert columns == lent
        lists = "; ".join(shown(column + BEHIND * [UNWRITTEN]) for column in columns)
        calls = ",".join(map(spelled, steps))
        self.taken.append(" ".join(map(str, lengths)) + f" {label}:{' ' * bool(calls)}{calls}")
        self.printed.append(f"{label}: {last}; {number} {count}; {lists}")
        return last, number

    def lengths(self, label, count):
        """Columns for so many arms on the same record: each one too short in turn, all of them, none, exact and longer."""
        for at, name in enumerate(("arms", "weights", "non-lifting")):
            own = [count, count, count]
            own[at] -= 1
            assert self.case(f"{label}, {name} one short", own) == (0, 11)
            assert self.case(f"{label}, {name} none", [0 if i == at else LONG for i in range(3)]) == (0, 11)
        assert self.case(f"{label}, all one short", 3 * [count - 1]) == (0, 11)
        assert self.case(f"{label}, no columns", 3 * [0]) == (0, 11)
        assert self.case(f"{label}, just enough", 3 * [count]) == (0, 0)
        for at, name in enumerate(("arms", "weights", "non-lifting")):
            assert self.case(f"{label}, {name} longer", [count + 1 + (i == at) for i in range(3)]) == (0, 0)
        assert self.case(f"{label}, long ones", 3 * [LONG]) == (0, 0)


def without_changes(out):
    out.note("No change, no arm: empty columns do, and longer ones stay as they are.")
    for label, steps in {
        "a weighing": [weighing()],
        "a pair": [paired()],
        "a weighing and a sheet": [weighing(), sheet()],
        "a weighing behind a sheet and a seat": [sheet(), seat(), weighing()],
        "a full record": [weighing(), *63 * [sheet()]],
        "G's file": [READ_G],
    }.items():
        assert out.case(label, [0, 0, 0], AFRESH, *steps) == (0, 0)
        assert out.case(f"{label}, long columns", [3, 1, 2]) == (0, 0)


def without_weighing(out):
    out.note("No weighing is 7, whatever the columns are.")
    for label, steps in {
        "nothing": [BACK],
        "a sheet": [sheet()],
        "a sheet and a seat": [sheet(), seat()],
        "64 sheets": 64 * [sheet()],
        "a refused change": [change()],
        "a refused weighing": [weighing(m=5)],
        "a weighing taken back": [weighing(), change(), BACK, BACK],
        "no file, unweighed": [READ_CUT],
    }.items():
        assert out.case(label, [0, 0, 0], AFRESH, *steps)[1] == 7
        assert out.case(f"{label}, long columns", 3 * [LONG])[1] == 7


def few_changes(out):
    out.note("One change, and more of them.")
    out.case("one change", [1, 1, 1], AFRESH, weighing(), change())
    out.lengths("one change", 1)
    out.case("one non-lifting part", [1, 1, 1], AFRESH, weighing(), change(flag=1))
    out.case("one part taken out", [1, 1, 1], AFRESH, weighing(), change(c=-1000))
    out.case("one non-lifting part taken out", [1, 1, 1], AFRESH, weighing(), change(c=-1000, flag=1))
    out.case("one arm twice", [2, 2, 2], change(c=-1, flag=0))
    out.case("an arm ahead of it", [2, 2, 2], change(arm=-5000, flag=1))
    out.case("an arm behind it", [3, 3, 3], change(arm=5001))
    out.case("an arm between them", [4, 4, 4], change(arm=4999, c=7))
    out.case("the foremost again", [4, 4, 4], change(arm=-5000, c=-3))
    out.case("the hindmost again", [4, 5, 6], change(arm=5001, c=-3, flag=1))
    out.lengths("four arms", 4)
    for left in (6, 5, 4, 3, 2):
        out.case(f"taken back, {left} changes left", [4, 4, 4], BACK)


def nets(out):
    out.note("Nets of nought are given; flags mixed at one arm; non-lifting nets below nought.")
    c, more, both = change(), change(flag=1), [change(c=-1000), change(c=-1000, flag=1)]
    out.case("fitted and taken out", [1, 1, 1], AFRESH, weighing(), c, both[0])
    out.case("fitted once more", [1, 1, 1], c)
    out.case("taken out as a non-lifting part", [1, 1, 1], both[1])
    out.case("and fitted as one", [1, 1, 1], more)
    out.case("non-lifting, fitted and taken out", [1, 1, 1], AFRESH, weighing(), more, both[1])
    out.case("fitted as one and taken out as the other", [1, 1, 1], AFRESH, weighing(), more, both[0])
    out.case("a weight in common", [1, 1, 1], AFRESH, weighing(), change(c=7), change(c=50, flag=1), change(c=-300))
    out.case("a non-lifting one below nought", [1, 1, 1], change(c=-2000, flag=1))
    out.case("and the weight above", [1, 1, 1], change(c=9000))
    out.case("a gram in and out at five arms", 3 * [5], AFRESH, weighing(), *(change(c=1, arm=a) for a in (3, -3, 0, 2, -2)))
    out.case("and out again", 3 * [5], *(change(c=-1, arm=a) for a in (0, 3, -2, 2, -3)))
    out.case("all of the non-lifting weight", [1, 1, 1], AFRESH, weighing(), change(c=-100000, flag=1))
    out.case("a gram too much of it", [1, 1, 1], change(c=-1, flag=1))
    out.case("no weight", [1, 1, 1], change(c=0))
    out.case("no flag", [1, 1, 1], change(flag=2))
    out.case("no arm", [1, 1, 1], change(arm=2000001))


def many_arms(out):
    """All arms of a full record in one order and another, which come to the same."""
    out.note("As many arms as there can be.")
    parts = [change(c=(100 + 7 * i) * (1 if i % 4 else -1), arm=31000 * i - 950000, flag=i % 3 % 2) for i in range(MOST_ARMS)]
    assert len({x.arm for x in parts}) == MOST_ARMS == MOST_ENTRIES - 1
    for name, steps in {
        "falling": parts[::-1],
        "rising": parts,
        "shuffled": [parts[23 * i % MOST_ARMS] for i in range(MOST_ARMS)],
        "from both ends": [parts[i // 2 if i % 2 else -1 - i // 2] for i in range(MOST_ARMS)],
    }.items():
        assert sorted(steps) == sorted(parts)
        assert out.case(f"63 arms, {name}", 3 * [MOST_ARMS], AFRESH, weighing(), *steps) == (0, 0)
    out.lengths("63 arms", MOST_ARMS)
    assert out.case("63 arms, one more change", 3 * [MOST_ARMS], change()) == (9, 0)
    out.case("63 arms, read back", 3 * [MOST_ARMS], AGAIN)
    out.case("62 arms", [62, 63, 62], BACK)
    out.case("62 arms and one of them again", 3 * [62], change(arm=parts[0].arm))
    out.note("All changes at one arm, and at eight.")
    turns = [change(c=1000 * (-1) ** i + i, arm=-77, flag=i // 2 % 2) for i in range(MOST_ARMS)]
    out.case("63 changes at one arm", [1, 1, 1], AFRESH, weighing(), *turns)
    out.lengths("63 changes at one arm", 1)
    eight = [x._replace(arm=5 * (i * i % 8) - 13 * (i % 8)) for i, x in enumerate(turns)]
    out.case("63 changes at eight arms", 3 * [8], AFRESH, weighing(), *eight)
    out.lengths("63 changes at eight arms", 8)


def ends(out):
    out.note("Arms at both ends of their range, and a unit apart.")
    arms = (2000000, -2000000, 0, 1999999, -1999999, -1, 1)
    out.case("ends of the range", 3 * [7], AFRESH, weighing(), *(change(arm=a, c=1 + i) for i, a in enumerate(arms)))
    out.case("beyond the range", 3 * [7], change(arm=-2000001))
    out.case("the ends again", 3 * [8], *(change(arm=a, c=-1, flag=1) for a in (-2000000, 2000000)))
    beside = [change(arm=a, c=10) for n in (255, 256, 32767, 32768, 65535, 65536) for a in (n, -n)]
    out.case("arms by their bytes", 3 * [12], AFRESH, weighing(), *beside)


def greatest(out):
    """A glider of a gram, to which all is fitted that can be, and from which it is taken out."""
    out.note("The greatest nets.")
    light, most = weighing(p=1, q=0, a=0, n=0), 1999999
    for flag in (0, 1):
        pairs = 31 * [change(c=most, arm=-2000000, flag=flag), change(c=-most, arm=2000000, flag=flag)]
        last = change(c=most, arm=-2000000, flag=flag)
        out.case(f"all in ahead and out behind, flag {flag}", [2, 2, 2], AFRESH, light, *pairs, last)
        out.case(f"all in behind and out ahead, flag {flag}", [2, 2, 2], AFRESH, light, *(x._replace(arm=-x.arm) for x in pairs))
    turned = [x for _ in range(15) for x in (change(c=most, arm=0, flag=1), change(c=-most, arm=1, flag=1))]
    out.case("in and out at arms a unit apart", [2, 2, 2], AFRESH, light, *turned)
    heavy = weighing(p=2000000, q=0, n=2000000)
    out.case("all out but a gram", [1, 1, 1], AFRESH, heavy, change(c=-most, flag=1))
    out.case("a gram too much", [1, 1, 1], change(c=-1, flag=1))
    out.case("and in again", [1, 1, 1], change(c=most, flag=0))


def weighings(out):
    out.note("Only the changes behind the last weighing, plain or paired. Taken back, it gives way to the one before.")
    first, second = [change(c=11, arm=1), change(c=22, arm=-1, flag=1)], [change(c=33, arm=2)]
    out.case("two changes", 3 * [2], AFRESH, weighing(), *first)
    out.case("weighed again", [0, 0, 0], weighing())
    out.case("weighed again, a change", 3 * [1], *second)
    out.case("weighed again, a pair", [0, 0, 0], paired())
    out.case("weighed again, a change behind the pair", 3 * [1], change(c=44, arm=1, flag=1))
    out.case("a pair that is refused", 3 * [1], paired(p2=0, q2=0))
    out.case("the pair taken back", 3 * [1], BACK, BACK)
    out.case("the second weighing taken back", 3 * [2], BACK, BACK)
    out.case("two changes behind a pair", 3 * [2], AFRESH, paired(), *first)
    out.case("a weighing behind the pair", [0, 0, 0], weighing())
    out.case("a weighing in slings, a change", 3 * [1], SECOND, change(c=1, arm=9))
    out.case("both weighings taken back", 3 * [2], BACK, BACK, BACK)
    out.case("a pair of an odd total", 3 * [1], AFRESH, paired(p=300000, p2=300001), change(c=1))
    out.case("a pair of an odd total, read back", 3 * [1], AGAIN)
    out.note("A file in the record's place.")
    part = change(c=4500, arm=-100000, flag=1)
    out.case("G's file over another record", [1, 0, 0], READ_G)
    out.case("G's file, a change", [1, 1, 1], part)
    out.case("G's file of version 1", [1, 1, 1], READ_OLD)
    out.case("G's file of version 1, a change", [1, 1, 1], part)
    out.case("no file, and the record stays", [1, 1, 1], READ_CUT)


def between(out):
    out.note("Sheets and seats between make no difference.")
    steps = [change(c=1, arm=4), sheet(), change(c=2, arm=-4), seat(), change(c=3, arm=4), LAX, seat(lower=0, higher=0)]
    out.case("between, sheets and seats", 3 * [2], AFRESH, weighing(), *steps)
    out.case("between, a sheet before all", 3 * [2], AFRESH, sheet(), seat(), weighing(), *steps)
    out.case("between, taken back", 3 * [2], BACK, BACK)
    out.case("between, more of them", 3 * [3], change(c=5, arm=0, flag=1), sheet(), sheet(), seat(), seat())
    out.case("between, read back", 3 * [3], AGAIN)


# Lists drawn by lot: so many parts at so many arms, other entries between them, some of it taken back, and columns.

WEIGHTS, ARMS = (-900, 2500), (-3, 6)


def part_by_lot(seed):
    (c, arm, flag, spread) = drawn(seed, (WEIGHTS[0], ARMS[0], 0, 0), (WEIGHTS[1], ARMS[1], 2, 4))
    return Change(c, (1, 1000, 333333, 650000)[spread] * arm, flag)


def steps_by_lot(seed):
    count, kind = drawn(seed, (1, 0), (25, 8))
    for i in range(count):
        yield part_by_lot(1000 * seed + i)
        if (i + kind) % 9 == 8:
            yield (sheet(), seat(), weighing(), paired(), BACK, AGAIN, sheet(), BACK)[kind]


def same_in_any_order(journal):
    """The changes behind a weighing in another order, where all are accepted, give the same equipment and the same plate."""
    weighing, changes = last_weighing(journal)
    turned = (sheet(), weighing, *changes[::-1])
    plain = (sheet(), weighing, *changes)
    for entries in (plain, turned):
        assert [add(entries[:i], entry)[0] for i, entry in enumerate(entries)] == len(entries) * [0]
    columns = [LONG * [UNWRITTEN] for _ in range(3)]
    assert equipment(plain, columns) == equipment(turned, columns)
    assert placard(plain, bytes(9216)) == placard(turned, bytes(9216))


def by_lot(out):
    out.note("Drawn by lot.")
    given = short = 0
    for seed in range(1, 61):
        steps = list(steps_by_lot(seed))
        lengths = drawn(seed, 3 * (0,), 3 * (12,))
        _, number = out.case(f"lot {seed}", lengths, AFRESH, weighing(), *steps)
        given, short = given + (number == 0), short + (number == 11)
        out.case(f"lot {seed}, long columns", 3 * [LONG])
        if seed % 12 == 0:
            same_in_any_order(out.journal)
    assert 10 < given and 20 < short


def lines():
    out = Lines()
    without_changes(out)
    without_weighing(out)
    few_changes(out)
    nets(out)
    many_arms(out)
    ends(out)
    greatest(out)
    weighings(out)
    between(out)
    by_lot(out)
    return out.told_apart()


def taken():
    lines().print_taken()


def report():
    for line in lines().printed:
        print(line)
