"""What the program `cases` prints, by the oracle's reckoning. A line is described in the program's src/main.rt."""

from oracle import Change, Paired, Seat, Sheet, Weighing, add, centre_of_gravity, read_balance, readings, undo

MOST_U64 = 2**64 - 1
LEAST_I64, MOST_I64 = -(2**63), 2**63 - 1

# Ordinary entries; a case alters some of their fields.
WEIGHING = Weighing(m=1, p=300000, q=30000, a=10000, b=500000, n=100000)
FRONT, REAR, WATER = (-47500, 55000, 110000, 1000), (10000, 100000, 50000), (30000, 100000, 50000)
SHEET = Sheet(25000, 42500, 380000, 450000, 240000, *FRONT, *REAR, *WATER)
SECOND = Weighing(m=3, p=355, q=90, a=50, b=13350, n=0)
PAIRED = Paired(m=1, p=300000, q=30000, p2=300001, q2=30010, a=10000, b=500000, n=100000)
SEAT = Seat(lower=-50000, higher=-45000)

FRESH = ()
BACK = None


def weighing(**fields):
    return WEIGHING._replace(**fields)


def paired(**fields):
    return PAIRED._replace(**fields)


def as_pair(w, **fields):
    """The pair of a weighing with itself, or with another reading."""
    return Paired(w.m, w.p, w.q, w.p, w.q, w.a, w.b, w.n)._replace(**fields)


def sheet(**fields):
    return SHEET._replace(**fields)


def seat(**fields):
    return SEAT._replace(**fields)


def weighed(n=100000):
    return (weighing(n=n),)


def filled(journal):
    return journal + (64 - len(journal)) * (SHEET,)


# Lines.


def numbers(journal):
    return " ".join(map(str, centre_of_gravity(journal)))


def answered(label, kept):
    """What a call answered, and what taking back from there answers; the journal is handed on."""
    number, journal = kept
    back, before = undo(journal)
    print(f"{label}: {number}; {numbers(journal)}; {back}; {numbers(before)}")
    return journal


def call(journal, step):
    """An entry is added, BACK takes back."""
    return undo(journal) if step is BACK else add(journal, step)


def in_turn(title, journal, steps):
    for label, step in steps:
        journal = answered(f"{title}, {label}", call(journal, step))
    return journal


def repeated(journal, step):
    """The same call 63 times: the greatest number that it gave, and the last journal."""
    greatest = 0
    for _ in range(63):
        number, journal = call(journal, step)
        greatest = max(greatest, number)
    return greatest, journal


# Worked weighings and rounding.


# A to F with their figures, total and moment in half grams.
A = Weighing(1, 310000, 29900, 9500, 550000, 0)
FIGURES = {
    "A and B": (A, (0, 620000, 38780000000, 62548)),
    "C": (Weighing(2, 310000, 280100, -9500, 550000, 0), (0, 620000, 38780000000, 62548)),
    "D": (Weighing(3, 355, 90, 50, 13350, 0), (0, 890, 2358500, 2650)),
    "E": (Weighing(4, 460, 15, 3000, 10300, 0), (0, 890, 2361000, 2653)),
    "F": (Weighing(1, 2, 1, 0, 50001, 0), (0, 4, 100002, 25001)),
    "F, a -50001": (Weighing(1, 2, 1, -50001, 50001, 0), (0, 4, -100002, -25000)),
}


def worked():
    """A to F, held to their figures as well, and the entries of G to J."""
    for label, (entry, figure) in FIGURES.items():
        assert centre_of_gravity((entry,)) == figure, label
        answered(label, add(FRESH, entry))
    g = Weighing(1, 288000, 0, 63334, 500000, 140000)
    g_sheet = sheet(rear_arm=0, greatest_rear=0, rear_step=1)
    j_sheet = Sheet(11200, 30000, 500000, 500000, 0, -123200, 0, 110000, 1000, -11200, 110000, 55000, 0, 0, 1)
    answered("G, weighing", add(FRESH, g))
    answered("G, sheet", add((g,), g_sheet))
    answered("H, change", add((g, g_sheet), Change(4500, -100000, 1)))
    answered("I, sheet", add((g,), g_sheet._replace(front_arm=41625)))
    answered("J, sheet", add((A,), j_sheet))


# The greatest and the least moment by each method.
EXTREMES = {
    f"method {m}, {label}": Weighing(m, *reading, 2000000, 0)
    for m, greatest, least in (
        (1, (2000000, 2000000, 2000000), (2000000, 0, -2000000)),
        (2, (2000000, 0, -2000000), (2000000, 2000000, 2000000)),
        (3, (0, 2000000, -2000000), (2000000, 0, 2000000)),
        (4, (2000000, 0, 2000000), (2000000, 1999999, -2000000)),
    )
    for label, reading in (("greatest", greatest), ("least", least))
}


def rounding():
    """A moment of p·a + q over a total of p."""
    halves = ((2, 1, 0), (2, 1, -1), (2, 1, 1), (2, 1, -2))
    thirds = ((3, 1, 0), (3, 2, 0), (3, 2, -1), (3, 1, -1), (3, 1, -16667), (3, 0, 0), (3, 0, -5))
    large = ((999999, 0), (1000000, 0), (1000000, -1), (999999, -1), (1999999, -1))
    for p, q, a in (*halves, *thirds, *((2000000, *case) for case in large)):
        answered(f"centre {p * a + q}/{p}", add(FRESH, Weighing(1, p, q, a, 1, 0)))


def moments():
    for label, entry in EXTREMES.items():
        answered(label, add(FRESH, entry))


# Weighings of a fresh record. The readings at their bounds: where p is the total, where the total is the sum, and where it is
# the difference.

METHODS = (0, 1, 2, 3, 4, 5, MOST_U64)
PART_OF_TOTAL = (
    *(("p 0", 0, 0), ("p 1", 1, 0), ("p 2000000", 2000000, 30000), ("p 2000001", 2000001, 30000)),
    *(("q 0", 300000, 0), ("q = p", 300000, 300000), ("q = p + 1", 300000, 300001)),
    *(("q 2000000", 2000000, 2000000), ("q 2000001", 2000000, 2000001)),
    ("p and q 2000001", 2000001, 2000001),
)
TOTAL_IS_SUM = (
    *(("G 0", 0, 0), ("G 1, all in front", 1, 0), ("G 1, all behind", 0, 1)),
    *(("G 2000000", 1000000, 1000000), ("G 2000001", 1000000, 1000001), ("G 4000000", 2000000, 2000000)),
    *(("p 2000000", 2000000, 0), ("p 2000001", 2000001, 0)),
    *(("q 2000000", 0, 2000000), ("q 2000001", 0, 2000001)),
)
TOTAL_IS_DIFFERENCE = (
    *(("p and q 0", 0, 0), ("G 0", 300000, 300000), ("G 1", 300001, 300000), ("G -1", 300000, 300001)),
    *(("G 2000000", 2000000, 0), ("G 2000001", 2000001, 0), ("p 2000001, G 2000000", 2000001, 1)),
    *(("q 1999999, G 1", 2000000, 1999999), ("q 2000000, G 0", 2000000, 2000000)),
    *(("q 2000001, G 1", 2000002, 2000001), ("q 2000001, G -1", 2000000, 2000001)),
)
BY_METHOD = ((1, PART_OF_TOTAL), (2, PART_OF_TOTAL), (3, TOTAL_IS_SUM), (4, TOTAL_IS_DIFFERENCE))


def weighing_case(label, **fields):
    entry = weighing(**fields)
    answered(f"weighing by method {entry.m}, {label}", add(FRESH, entry))


def weighings():
    for m in METHODS:
        weighing_case("ordinary", m=m, n=0)
    for m, cases in BY_METHOD:
        for label, p, q in cases:
            weighing_case(label, m=m, p=p, q=q, n=0)


def distances(m, total):
    for a in (-2000001, -2000000, 0, 2000000, 2000001):
        weighing_case(f"a {a}", m=m, a=a)
    for b in (0, 1, 2000000, 2000001):
        weighing_case(f"b {b}", m=m, b=b)
    weighing_case("n 0", m=m, n=0)
    weighing_case("n = G", m=m, n=total)
    weighing_case("n = G + 1", m=m, n=total + 1)
    weighing_case("p at most", m=m, p=MOST_U64, n=0)
    weighing_case("q at most", m=m, q=MOST_U64, n=0)
    weighing_case("p and q at most", m=m, p=MOST_U64, q=MOST_U64, n=0)
    weighing_case("a at least", m=m, a=LEAST_I64)
    weighing_case("a at most", m=m, a=MOST_I64)
    weighing_case("b at most", m=m, b=MOST_U64)
    weighing_case("n at most", m=m, n=MOST_U64)


# Sheets for a weighed record.


def sheet_case(label, **fields):
    answered(f"sheet, {label}", add(weighed(), sheet(**fields)))


def sheet_arms():
    for fwd in (-2000001, -2000000):
        sheet_case(f"FWD {fwd}", fwd=fwd)
    for fwd in (1999999, 2000000, 2000001):
        sheet_case(f"FWD {fwd}", fwd=fwd, aft=2000000)
    for aft in (-2000001, -2000000, -1999999):
        sheet_case(f"AFT {aft}", fwd=-2000000, aft=aft)
    for aft in (2000000, 2000001):
        sheet_case(f"AFT {aft}", aft=aft)
    sheet_case("FWD = AFT - 1", fwd=42499)
    sheet_case("FWD = AFT", fwd=42500)
    sheet_case("FWD = AFT + 1", fwd=42501)
    for station in ("front", "rear", "water"):
        for arm in (-2000001, -2000000, 2000000, 2000001):
            sheet_case(f"{station} arm {arm}", **{f"{station}_arm": arm})


def sheet_weights():
    sheet_case("DRY 0", dry=0)
    sheet_case("DRY 1", dry=1)
    sheet_case("DRY and WET 0", dry=0, wet=0)
    sheet_case("DRY and WET 1", dry=1, wet=1)
    sheet_case("WET = DRY - 1", wet=379999)
    sheet_case("WET = DRY", wet=380000)
    sheet_case("WET 2000000", wet=2000000)
    sheet_case("WET 2000001", wet=2000001)
    sheet_case("DRY 2000000", dry=2000000, wet=2000000)
    sheet_case("DRY 2000001", dry=2000001, wet=2000000)
    sheet_case("DRY and WET 2000001", dry=2000001, wet=2000001)
    for nlp in (0, 1, 2000000, 2000001):
        sheet_case(f"NLP {nlp}", nlp=nlp)


def sheet_loads():
    for label, least, greatest in (
        *(("least 0", 0, 110000), ("least = greatest", 110000, 110000), ("least = greatest + 1", 110001, 110000)),
        *(("least and greatest 0", 0, 0), ("greatest 500000", 55000, 500000), ("greatest 500001", 55000, 500001)),
        *(("least and greatest 500000", 500000, 500000), ("least and greatest 500001", 500001, 500001)),
    ):
        sheet_case(label, least_front=least, greatest_front=greatest)
    for load in (0, 500000, 500001):
        sheet_case(f"greatest rear {load}", greatest_rear=load)
    for capacity in (0, 2000000, 2000001):
        sheet_case(f"capacity {capacity}", capacity=capacity)


def sheet_rows():
    for step in (0, 1, 500000, 500001):
        sheet_case(f"front step {step}", front_step=step)
    for step, load in ((0, 0), (1, 0), (500000, 100000), (500001, 100000)):
        sheet_case(f"rear step {step}", rear_step=step, greatest_rear=load)
    for step, capacity in ((0, 0), (1, 0), (2000000, 100000), (2000001, 100000)):
        sheet_case(f"water step {step}", water_step=step, capacity=capacity)
    for label, load, capacity, step in (
        *(("1 row", 0, 0, 1), ("1 times 256 rows", 0, 255, 1), ("1 times 257 rows", 0, 256, 1)),
        *(("256 times 1 rows", 255, 0, 1), ("257 times 1 rows", 256, 0, 1), ("16 times 16 rows", 15, 15, 1)),
        *(("16 times 17 rows", 15, 16, 1), ("17 times 16 rows", 16, 15, 1)),
        *(("2 times 128 rows", 1, 127, 1), ("2 times 129 rows", 1, 128, 1)),
        *(("256 rows, quotient 255 and a half", 0, 511, 2), ("257 rows, quotient 256", 0, 512, 2)),
        *(("257 rows, quotient 256 and a half", 0, 513, 2), ("1000002500001 rows", 500000, 2000000, 1)),
    ):
        sheet_case(label, greatest_rear=load, rear_step=1, capacity=capacity, water_step=step)


def sheet_extremes():
    sheet_case("FWD at least", fwd=LEAST_I64)
    sheet_case("FWD at most", fwd=MOST_I64)
    sheet_case("AFT at least", aft=LEAST_I64)
    sheet_case("AFT at most", aft=MOST_I64)
    sheet_case("FWD at least and AFT at most", fwd=LEAST_I64, aft=MOST_I64)
    for station in ("front", "rear", "water"):
        sheet_case(f"{station} arm at least", **{f"{station}_arm": LEAST_I64})
        sheet_case(f"{station} arm at most", **{f"{station}_arm": MOST_I64})
    sheet_case("DRY at most", dry=MOST_U64)
    sheet_case("WET at most", wet=MOST_U64)
    sheet_case("DRY and WET at most", dry=MOST_U64, wet=MOST_U64)
    sheet_case("NLP at most", nlp=MOST_U64)
    sheet_case("least at most", least_front=MOST_U64)
    sheet_case("greatest at most", greatest_front=MOST_U64)
    sheet_case("least and greatest at most", least_front=MOST_U64, greatest_front=MOST_U64, front_step=1)
    sheet_case("front step at most", front_step=MOST_U64)
    sheet_case("greatest rear at most", greatest_rear=MOST_U64, rear_step=1)
    sheet_case("rear step at most", rear_step=MOST_U64)
    sheet_case("capacity at most", capacity=MOST_U64, water_step=1)
    sheet_case("water step at most", water_step=MOST_U64)
    sheet_case("both loads at most", greatest_rear=MOST_U64, capacity=MOST_U64, rear_step=1, water_step=1)


# Changes to a weighed record.


def change_case(label, c=1000, arm=5000, flag=0):
    answered(f"change, {label}", add(weighed(), Change(c, arm, flag)))


def changes():
    for arm in (-2000001, -2000000, 0, 2000000, 2000001):
        change_case(f"arm {arm}", arm=arm)
    for arm in (-2000000, 2000000):
        change_case(f"taken out, arm {arm}", c=-1000, arm=arm)
    for c in (-2000001, -2000000, -1, 0, 1, 2000000, 2000001):
        change_case(f"c {c}", c=c)
    for flag in (0, 1, 2):
        change_case(f"flag {flag}", flag=flag)
    for total in (-1, 0, 1, 2000000, 2000001):
        answered(f"change, n 0, G after {total}", add(weighed(n=0), Change(total - 300000, 5000, 0)))
    for total, c in ((1, 1999999), (1, 2000000), (2000000, -1999999), (2000000, -2000000)):
        answered(f"change, G {total}, c {c}", add((weighing(p=total, q=0, n=0),), Change(c, 5000, 0)))
    for n, label, c, flag in (
        *((100000, "-1", -100001, 1), (100000, "0", -100000, 1), (0, "-1", -1, 1), (0, "1", 1, 1)),
        *((100000, "= G", -200000, 0), (100000, "= G + 1", -200001, 0), (300000, "= G + 1", -1, 0)),
        *((300000, "= G", -1, 1), (300000, "= G = 1", -299999, 1), (300000, "= G = 0", -300000, 1)),
        *((300000, "= G = 2000000", 1700000, 1), (300000, "= G - 1", 1, 0)),
    ):
        answered(f"change, n {n}, n after {label}", add(weighed(n=n), Change(c, 5000, flag)))


def change_extremes():
    change_case("c at least", c=LEAST_I64)
    change_case("c at most", c=MOST_I64)
    change_case("c at least, flag 1", c=LEAST_I64, flag=1)
    change_case("c at most, flag 1", c=MOST_I64, flag=1)
    change_case("arm at least", arm=LEAST_I64)
    change_case("arm at most", arm=MOST_I64)
    change_case("flag at most", flag=MOST_U64)
    change_case("c and arm at least", LEAST_I64, LEAST_I64, MOST_U64)
    change_case("c and arm at most", MOST_I64, MOST_I64, MOST_U64)


# Two or more conditions at once.


def weighing_orders(full):
    def faulty(m=1, a=10000, n=0):
        return weighing(m=m, a=a, n=n)

    yield "none", FRESH, faulty()
    yield "full", full, faulty()
    yield "full and reading", full, faulty(m=0)
    yield "full and arm", full, faulty(a=2000001)
    yield "full and non-lifting", full, faulty(n=300001)
    yield "reading and arm", FRESH, faulty(m=0, a=2000001)
    yield "reading and non-lifting", FRESH, faulty(m=5, n=300001)
    yield "arm and non-lifting", FRESH, faulty(a=2000001, n=300001)
    yield "all but full", FRESH, faulty(m=0, a=2000001, n=300001)
    yield "all", full, faulty(m=0, a=2000001, n=300001)


def sheet_orders(full):
    here = weighed()
    yield "none", here, sheet()
    yield "full", full, sheet()
    yield "full and arm", full, sheet(fwd=-2000001)
    yield "full and range", full, sheet(dry=0)
    yield "full and step", full, sheet(water_step=0)
    yield "full and rows", full, sheet(water_step=100)
    yield "arm and range", here, sheet(fwd=-2000001, dry=0)
    yield "arm and FWD over AFT", here, sheet(fwd=2000001)
    yield "arm and step", here, sheet(fwd=-2000001, water_step=0)
    yield "arm and rows", here, sheet(fwd=-2000001, water_step=100)
    yield "range and step", here, sheet(dry=0, water_step=0)
    yield "range and rows", here, sheet(dry=0, water_step=100)
    yield "rows", here, sheet(water_step=100)
    yield "all but full", here, sheet(fwd=-2000001, dry=0, water_step=0)
    yield "all", full, sheet(fwd=-2000001, dry=0, water_step=0)


def change_orders(full):
    sheets, here = filled(FRESH), weighed()
    yield "full and unweighed", sheets, Change(1000, 5000, 0)
    yield "full", full, Change(1000, 5000, 0)
    yield "full and arm", full, Change(1000, 2000001, 0)
    yield "full and change", full, Change(0, 5000, 0)
    yield "full and G after", full, Change(-300000, 5000, 0)
    yield "full and non-lifting", full, Change(-100001, 5000, 1)
    yield "unweighed", FRESH, Change(1000, 5000, 0)
    yield "unweighed and arm", FRESH, Change(1000, 2000001, 0)
    yield "unweighed and change", FRESH, Change(0, 5000, 0)
    yield "unweighed and flag", FRESH, Change(1000, 5000, 2)
    yield "unweighed and taken out", FRESH, Change(-1000, 5000, 1)
    yield "all but full", FRESH, Change(0, 2000001, 2)
    yield "all", sheets, Change(0, 2000001, 2)
    yield "arm and c", here, Change(0, 2000001, 0)
    yield "arm and flag", here, Change(1000, -2000001, 2)
    yield "arm and G after", here, Change(-300000, 2000001, 0)
    yield "arm and non-lifting", here, Change(-100001, 2000001, 1)
    yield "c and non-lifting", here, Change(-2000001, 5000, 1)
    yield "flag and non-lifting", here, Change(-200001, 5000, 2)
    yield "G after and non-lifting, flag 1", here, Change(-300000, 5000, 1)
    yield "G after and non-lifting, flag 0", here, Change(-300000, 5000, 0)
    yield "G after alone", here, Change(1700001, 5000, 1)
    yield "non-lifting alone, flag 1", here, Change(-100001, 5000, 1)
    yield "non-lifting alone, flag 0", here, Change(-200001, 5000, 0)
    yield "arm, c and non-lifting", here, Change(-2000001, 2000001, 1)


def orders():
    full = filled(weighed())
    calls = {"weighing": weighing_orders, "sheet": sheet_orders, "change": change_orders}
    for call_name, cases in calls.items():
        for label, journal, entry in cases(full):
            answered(f"order of a {call_name}, {label}", add(journal, entry))


# The list.


def lists():
    answered("list, fresh", (0, FRESH))
    answered("list, fresh, taken back", undo(FRESH))
    answered("list, a sheet alone", add(FRESH, SHEET))
    answered("list, a change behind the sheet", add((SHEET,), Change(1, 0, 0)))
    answered("list, the sheet taken back", undo((SHEET,)))
    steps = [("change of the first", Change(1000, 2000, 1)), ("change of the first", Change(-500, -3000, 0))]
    steps += [("the second", SECOND), ("change of the second", Change(55, -700, 0))] + 3 * [("taken back", BACK)]
    steps += [("another change", Change(7, 11, 0))] + 4 * [("taken back", BACK)]
    in_turn("two weighings", weighed(), steps)
    steps = [("before", SHEET), ("weighing", SECOND), ("behind the weighing", SHEET)]
    steps += [("change", Change(55, -700, 1)), ("between the changes", SHEET), ("change", Change(-100, 900, 0))]
    steps += [("behind the changes", SHEET)] + 4 * [("taken back", BACK)]
    in_turn("sheets", FRESH, steps)
    steps = [("n 150000", Change(50000, 0, 1)), ("n 0", Change(-150000, 0, 1)), ("n -1", Change(-1, 0, 1))]
    steps += [("G 2000000", Change(1800000, 0, 0)), ("G 2000001", Change(1, 0, 0)), ("G 1999999", Change(-1, 0, 0))]
    steps += [("G 2000000, n 1", Change(1, 0, 1)), ("weighed again", SECOND)]
    steps += [("n -1 again", Change(-1, 0, 1)), ("G 0", Change(-445, 0, 0)), ("G 1", Change(-444, 0, 0))]
    in_turn("carried", weighed(), steps)


def full_lists():
    change = Change(1, 0, 0)
    journal = in_turn("64 sheets", FRESH, [("the first", SHEET)])
    journal = answered("64 sheets, 63 more", repeated(journal, SHEET))
    steps = [("the 65th", SHEET), ("a weighing", SECOND), ("a change", change), ("63 left", BACK)]
    steps += [("a change as the 64th", change), ("a weighing as the 64th", SECOND), ("a change as the 65th", change)]
    journal = in_turn("64 sheets", journal, steps)
    journal = answered("64 sheets, 1 left", repeated(journal, BACK))
    in_turn("64 sheets", journal, [("none left", BACK), ("nothing to take back", BACK), ("weighed after all", SECOND)])
    change = Change(1000, 2000, 1)
    journal = answered("63 changes", repeated(weighed(), change))
    steps = [("one more", change), ("a weighing", SECOND), ("62 left", BACK), ("another", Change(-1000, 2000, 0))]
    journal = in_turn("63 changes", journal, steps)
    journal = answered("63 changes, none left", repeated(journal, BACK))
    in_turn("63 changes", journal, [("the weighing taken back", BACK), ("nothing to take back", BACK)])


def widest():
    """All but 1 g taken out at one arm and put in at the other, by turns, in 63 changes."""
    for label, q, arm, b in (("greatest", 2000000, 2000000, 2000000), ("least", 0, -2000000, 1)):
        out, back = Change(-1999999, -arm, 0), Change(1999999, arm, 0)
        journal = (Weighing(1, 2000000, q, arm, b, 0),) + 31 * (out, back)
        answered(f"{label} moment", add(journal, out))


def refused():
    journal = in_turn("refused", weighed(), [("sheet", SHEET), ("change", Change(1000, 2000, 1))])
    for label, entry in (
        ("reading", weighing(p=0, q=0, n=0)),
        ("weighing's arm", weighing(a=0, b=0)),
        ("non-lifting", weighing(n=300001)),
        ("sheet's arm", sheet(water_arm=2000001, capacity=0, water_step=1)),
        ("sheet's range", sheet(fwd=0, aft=0)),
        ("sheet's rows", sheet(greatest_rear=0, rear_step=1, capacity=256, water_step=1)),
        ("change's arm", Change(1, 2000001, 0)),
        ("change's weight", Change(0, 0, 0)),
        ("total after", Change(-301000, 0, 0)),
        ("non-lifting after", Change(-101001, 0, 1)),
    ):
        answered(f"refused, {label}", add(journal, entry))
    steps = [("sheet", SHEET), ("reading", weighing(m=0, p=1, q=0, n=0)), ("arm", weighing(a=0, b=0))]
    steps += [("non-lifting", weighing(n=300001)), ("change", Change(0, 0, 0))]
    steps += [("non-lifting after", Change(-100001, 0, 1)), ("accepted", Change(-100000, 0, 1))]
    steps += 3 * [("taken back", BACK)] + [("nothing to take back", BACK), ("unweighed", Change(1, 0, 0))]
    steps += [("reading", weighing(p=0, q=0, n=0)), ("weighed again", SECOND)]
    in_turn("in turn", weighed(), steps)


# Paired weighings.


def pairs_of_equals():
    """They answer as the plain weighings do."""
    plain = {label: entry for label, (entry, _) in FIGURES.items()} | EXTREMES
    for label, entry in plain.items():
        assert centre_of_gravity((as_pair(entry),)) == centre_of_gravity((entry,)), label
        answered(f"pair of equals, {label}", add(FRESH, as_pair(entry)))


def pair_rounding():
    """A moment of (p + p')·a + q + q' over a total of p + p'."""
    halves = ((1, 1, 1, 0, 0), (1, 0, 1, 1, -1), (1, 1, 1, 0, 1), (1, 0, 1, 1, -2))
    thirds = ((1, 1, 2, 0, 0), (2, 1, 1, 1, 0), (1, 0, 2, 2, -1), (2, 0, 1, 1, -1), (1, 0, 2, 0, 0))
    large = ((999999, 1000000, 0), (1000000, 1000000, 0), (0, 1, -1), (1000000, 1000000, -1), (999999, 1000000, -1))
    for p, q, p2, q2, a in (*halves, *thirds, *((2000000, q, 1999999, q2, a) for q, q2, a in large)):
        label = f"pair, centre {(p + p2) * a + q + q2}/{p + p2}"
        answered(label, add(FRESH, Paired(1, p, q, p2, q2, a, 1, 0)))


def pair_case(label, **fields):
    entry = paired(**fields)
    answered(f"pair by method {entry.m}, {label}", add(FRESH, entry))


def pair_readings():
    """Each bound of either reading, beside an ordinary one."""
    for m in METHODS:
        pair_case("ordinary", m=m, n=0)
    for m, cases in BY_METHOD:
        for label, p, q in cases:
            pair_case(f"first {label}", m=m, p=p, q=q, n=0)
            pair_case(f"second {label}", m=m, p2=p, q2=q, n=0)


def pair_distances():
    for a in (-2000001, -2000000, 0, 2000000, 2000001):
        pair_case(f"a {a}", a=a)
    for b in (0, 1, 2000000, 2000001):
        pair_case(f"b {b}", b=b)
    for label, field in (("p", "p"), ("q", "q"), ("p'", "p2"), ("q'", "q2")):
        pair_case(f"{label} at most", **{field: MOST_U64}, n=0)
    pair_case("all readings at most", p=MOST_U64, q=MOST_U64, p2=MOST_U64, q2=MOST_U64, n=0)
    pair_case("a at least", a=LEAST_I64)
    pair_case("a at most", a=MOST_I64)
    pair_case("b at most", b=MOST_U64)
    pair_case("n at most", n=MOST_U64)


def pair_shares():
    """n at the smaller total and one above, whichever reading has it."""
    for m in (1, 2, 3, 4):
        for label, turned in (("", {}), (", turned round", {"p": 300001, "q": 30010, "p2": 300000, "q2": 30000})):
            smaller, greater = sorted(read_balance(w).total for w in readings(paired(m=m, **turned)))
            pair_case(f"n = smaller G{label}", m=m, n=smaller, **turned)
            pair_case(f"n = smaller G + 1{label}", m=m, n=smaller + 1, **turned)
            pair_case(f"n = greater G{label}", m=m, n=greater, **turned)
    equals = as_pair(WEIGHING)
    answered("pair of equals, n = G", add(FRESH, equals._replace(n=300000)))
    answered("pair of equals, n = G + 1", add(FRESH, equals._replace(n=300001)))


def pair_orders():
    """By number, and not reading by reading: 1 of the second counts before 3 of the first."""
    full = filled(weighed())
    first, second, arm = {"p": 0, "q": 0}, {"p2": 0, "q2": 0}, {"a": 2000001}
    for label, journal, entry in (
        ("none", FRESH, paired()),
        ("full", full, paired()),
        ("full and first reading", full, paired(**first)),
        ("full and second reading", full, paired(**second)),
        ("full and arm", full, paired(**arm)),
        ("full and non-lifting", full, paired(n=300001)),
        ("first reading and arm", FRESH, paired(**first, **arm)),
        ("second reading and arm", FRESH, paired(**second, **arm)),
        ("both readings", FRESH, paired(**first, **second)),
        ("first reading and second's non-lifting", FRESH, paired(**first, n=300002)),
        ("second reading and first's non-lifting", FRESH, paired(**second, p=99999)),
        ("arm and first's non-lifting", FRESH, paired(**arm, p=99999)),
        ("arm and second's non-lifting", FRESH, paired(**arm, p2=99999)),
        ("first's non-lifting", FRESH, paired(p=99999)),
        ("second's non-lifting", FRESH, paired(p2=99999)),
        ("both non-lifting", FRESH, paired(n=300002)),
        ("all but full", FRESH, paired(**second, **arm, p=99999)),
        ("all", full, paired(**second, **arm, p=99999)),
    ):
        answered(f"order of a pair, {label}", add(journal, entry))


def totals(first, second, n=0):
    """A pair of these totals at the datum."""
    return (Paired(1, first, 0, second, 0, 0, 1, n),)


def pair_changes():
    """What is left is counted in half grams: 2 are a gram, and 1 is none."""
    assert add(totals(3, 4), Change(-3, 0, 0))[0] == 6 and add(totals(3, 3), Change(-2, 0, 0))[0] == 0
    for first, second, c in (
        *((3, 4, -2), (3, 4, -3), (3, 4, -4), (3, 3, -2), (3, 3, -3), (1, 2, -1), (1, 2, 1)),
        *((1999999, 2000000, 1), (1999999, 1999999, 1), (1999998, 1999999, 1), (1999998, 1999999, 2)),
    ):
        answered(f"change, pair of {first} and {second}, c {c}", add(totals(first, second), Change(c, 5000, 0)))
    for n, c, flag in (
        *((4, -1, 0), (4, -1, 1), (4, -3, 1), (4, -4, 1), (3, -1, 0), (3, -2, 0), (1, -1, 1), (1, -2, 1)),
        *((4, 1, 0), (4, 1, 1), (0, -1, 1), (0, 1, 1)),
    ):
        answered(f"change, pair of 4 and 5, n {n}, c {c}, flag {flag}", add(totals(4, 5, n), Change(c, 5000, flag)))


def pair_lists():
    steps = [("a pair", PAIRED), ("change of it", Change(1000, 2000, 1)), ("a plain weighing", SECOND)]
    steps += [("change of that", Change(55, -700, 0)), ("sheet", SHEET), ("another pair", as_pair(SECOND, q2=91))]
    steps += [("change of the other", Change(-100, 900, 0)), ("first reading", paired(p=0, q=0))]
    steps += [("second reading", paired(p2=0, q2=0)), ("arm", paired(b=0)), ("non-lifting", paired(n=300001))]
    steps += 7 * [("taken back", BACK)] + [("nothing to take back", BACK), ("weighed again", PAIRED)]
    in_turn("pairs", FRESH, steps)
    journal = answered("64 entries, 63 sheets", repeated(FRESH, SHEET))
    steps = [("the pair", PAIRED), ("another pair", PAIRED), ("a change", Change(1, 0, 0)), ("taken back", BACK)]
    steps += [("refused", paired(n=300001)), ("the pair again", PAIRED)]
    in_turn("64 entries", journal, steps)


# Seats.


def seat_case(label, **fields):
    answered(f"seat, {label}", add((*weighed(), SHEET), seat(**fields)))


def seats():
    """Each end at its bounds and beside them, and the two in their order."""
    seat_case("ordinary")
    for lower in (-2000001, -2000000, -45001, -45000, -44999):
        seat_case(f"lower {lower}", lower=lower)
    for higher in (-50001, -50000, -49999, 0, 2000000, 2000001):
        seat_case(f"higher {higher}", higher=higher)
    for lower, higher in (
        *((-2000000, 2000000), (-2000001, 2000000), (-2000000, 2000001), (-2000001, 2000001)),
        *((-2000000, -2000000), (-2000000, -1999999), (-2000000, -2000001), (-2000001, -2000001), (-1999999, -2000000)),
        *((2000000, 2000000), (1999999, 2000000), (2000001, 2000000), (2000001, 2000001), (2000000, 1999999)),
        *((0, 0), (0, 1), (1, 0), (-1, 0), (0, -1), (-1, 1), (1, -1), (2000000, -2000000), (2000001, -2000001)),
    ):
        seat_case(f"{lower} to {higher}", lower=lower, higher=higher)


def seat_extremes():
    seat_case("lower at least", lower=LEAST_I64)
    seat_case("lower at most", lower=MOST_I64)
    seat_case("higher at least", higher=LEAST_I64)
    seat_case("higher at most", higher=MOST_I64)
    for label, lower, higher in (
        *(("least to most", LEAST_I64, MOST_I64), ("most to least", MOST_I64, LEAST_I64)),
        *(("least to least", LEAST_I64, LEAST_I64), ("most to most", MOST_I64, MOST_I64)),
    ):
        seat_case(label, lower=lower, higher=higher)


def seat_orders():
    """No weighing is asked for. A seat is reversed where its higher end comes first."""
    full, weighings, here = filled(weighed()), 64 * (WEIGHING,), (*weighed(), SHEET)
    arm, turned = {"lower": -2000001}, {"lower": -45000, "higher": -50000}
    for label, journal, entry in (
        ("none", here, seat()),
        ("none, and no weighing", (SHEET,), seat()),
        ("full", full, seat()),
        ("full and arm", full, seat(**arm)),
        ("full and reversed", full, seat(**turned)),
        ("full and no sheet", weighings, seat()),
        ("full, no sheet and arm", weighings, seat(**arm)),
        ("full, no sheet and reversed", weighings, seat(**turned)),
        ("no sheet", weighed(), seat()),
        ("no sheet and no weighing", FRESH, seat()),
        ("no sheet and arm", weighed(), seat(**arm)),
        ("no sheet and reversed", FRESH, seat(**turned)),
        ("arm", here, seat(**arm)),
        ("reversed", here, seat(**turned)),
        ("arm and reversed", here, seat(lower=2000001)),
        ("arm, and no weighing", (SHEET,), seat(higher=2000001)),
    ):
        answered(f"order of a seat, {label}", add(journal, entry))


def seat_lists():
    """They count for nothing in the balance."""
    steps = [("before the sheet", SEAT), ("sheet", SHEET), ("before the weighing", SEAT), ("weighing", SECOND)]
    steps += [("behind the weighing", seat(lower=-60000)), ("change", Change(55, -700, 1)), ("behind the change", SEAT)]
    steps += [("a pair", as_pair(SECOND, q2=91)), ("reversed", seat(lower=0)), ("arm", seat(higher=2000001))]
    steps += [("behind the pair", seat(higher=-50000)), ("another sheet", SHEET), ("behind the other sheet", SEAT)]
    steps += 10 * [("taken back", BACK)] + [("no sheet left", SEAT), ("nothing to take back", BACK), ("no sheet", SEAT)]
    in_turn("seats", FRESH, steps)


def full_of_seats():
    journal = answered("64 entries with seats, 63 sheets", repeated(FRESH, SHEET))
    steps = [("a seat as the 64th", SEAT), ("as the 65th", SEAT), ("reversed as the 65th", seat(lower=0))]
    steps += [("taken back", BACK), ("reversed as the 64th", seat(lower=0)), ("a weighing as the 64th", SECOND)]
    steps += [("a seat behind it", SEAT), ("taken back", BACK), ("a seat after all", SEAT)]
    in_turn("64 entries with seats", journal, steps)
    journal = answered("63 seats", repeated((SHEET,), SEAT))
    steps = [("one more", SEAT), ("a weighing", SECOND), ("62 left", BACK), ("a weighing in its place", SECOND)]
    journal = in_turn("63 seats", journal, steps)
    journal = answered("63 seats, none left", repeated(journal, BACK))
    in_turn("63 seats", journal, [("the sheet taken back", BACK), ("nothing to take back", BACK), ("no sheet", SEAT)])


def report():
    worked()
    rounding()
    moments()
    weighings()
    for m, total in ((1, 300000), (2, 300000), (3, 330000), (4, 270000)):
        distances(m, total)
    sheet_case("ordinary")
    sheet_arms()
    sheet_weights()
    sheet_loads()
    sheet_rows()
    sheet_extremes()
    changes()
    change_extremes()
    orders()
    lists()
    full_lists()
    widest()
    refused()
    pairs_of_equals()
    pair_rounding()
    pair_readings()
    pair_distances()
    pair_shares()
    pair_orders()
    pair_changes()
    pair_lists()
    seats()
    seat_extremes()
    seat_orders()
    seat_lists()
    full_of_seats()
