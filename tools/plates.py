"""What the program `plates` prints, by the oracle's reckoning. Its lines are described in the program's src/."""

import random

from cases import BACK, FRESH, PAIRED, SEAT, SECOND, as_pair, paired, repeated, seat, sheet, weighing
from files import G, H_CHANGE, PAIR, byte_sum
from oracle import HALVES, Balance, Change, Paired, Seat, Sheet, Weighing, add, all_of, balance_of, centre_of_gravity, file_of
from oracle import placard, read, row, row_loads, seat_in_force, sheet_in_force, undo

MOST, MOST_SEAT = 2000000, 500000

# Reading back: the record's own file into a fresh record, the file of G in version 1, and that without its last byte.
AGAIN, READ_G, READ_CUT = "again", "G's file", "cut"

# A sheet of one row that limits nothing but the front load.
LAX = Sheet(-MOST, MOST, MOST, MOST, 0, 0, 0, MOST_SEAT, 1000, 0, 0, 1, 0, 0, 1)


def lax(**fields):
    return LAX._replace(**fields)


def a_gram(**fields):
    """One whose only front load is a gram."""
    return lax(least_front=1, greatest_front=1, front_step=1, **fields)


def fine(s):
    """A sheet by the gram."""
    return s._replace(front_step=1)


def level(**fields):
    """A glider of 200 kg, half of it non-lifting."""
    return Weighing(1, 200000, 0, 0, 1, 100000)._replace(**fields)


# Calls and lines.


def call(journal, step):
    if step is AGAIN:
        return read(FRESH, file_of(journal))
    if step in (READ_G, READ_CUT):
        return read(journal, file_of(G, version=1)[: 89 if step is READ_G else 88])
    return undo(journal) if step is BACK else add(journal, step)


def played(journal, steps):
    """The last call's number and journal."""
    number = 0
    for step in steps:
        number, journal = call(journal, step)
    return number, journal


def shown(text):
    """The lines, or of more than twelve the first, the last and the sum of the bytes."""
    if len(text) <= 432:
        return text.decode()
    return f"{text[:36].decode()}{text[-36:].decode()}sum {byte_sum(text)}\n"


def printed(label, kept, lent=576):
    """The first bytes of a longer buffer of AA are lent; 16 behind them are looked at. The journal is handed on."""
    number, journal = kept
    answer, length, rows, blank, after = placard(journal, lent * b"\xaa")
    stay = (after + 16 * b"\xaa")[length:].count(0xAA)
    assert stay == lent - length + 16
    print(f"{label}: {number}; {answer} {length} {rows} {blank}; {stay}\n{shown(after[:length])}", end="")
    return journal


def cases(title, journal, *steps):
    """A line for each step from the same journal."""
    for label, step in steps:
        printed(f"{title}, {label}", call(journal, step))


def in_turn(title, journal, *steps):
    for label, step in steps:
        journal = printed(f"{title}, {label}", call(journal, step))
    return journal


def rows_of(journal, reckoned=balance_of, **tried):
    """Rear load, water and ends of each row."""
    s, seat = sheet_in_force(journal), seat_in_force(journal)
    return [(*loads, row(s, seat, reckoned(journal), *loads, **tried)) for loads in row_loads(s)]


def ends_of(journal, reckoned=balance_of, **tried):
    """The ends of each row in kilograms, or None."""
    rows = rows_of(journal, reckoned, **tried)
    return [ends and tuple(end / 1000 for end in ends) for _, _, ends in rows]


# Both ends of the water and of the seat, against every v from 0 to w at every arm.


def small_glider(draw, travel):
    """A sheet, a seat of up to so much travel, and a balance."""
    fwd, dry, total = draw(-60, 40), draw(60, 200), draw(2, 240)
    limits = (fwd, fwd + draw(1, 60), dry, dry + draw(0, 40), draw(0, 1) * draw(40, 160))
    front = (draw(-90, 90), draw(0, 20), draw(20, 60), draw(1, 7))
    s = Sheet(*limits, *front, draw(-90, 90), 4, 2, draw(-90, 90), 12, 4)
    balance = Balance(total, total * draw(-80, 80) + draw(0, total), draw(0, total))
    lower = draw(-90, 90)
    return s, Seat(lower, lower + draw(min(travel, 1), travel)), balance


def middle_of(travel):
    return [travel[len(travel) // 2]]


def agreement():
    """Neither end of a seat that moves will do for the other, nor the middle for both."""
    draw = random.Random(1).randint
    judged = {"lower": lambda travel: travel[:1], "higher": lambda travel: travel[-1:], "middle": middle_of}
    given, wrong = 0, dict.fromkeys(judged, 0)
    for travel in 2000 * (0, 20):
        glider = small_glider(draw, travel)
        for loads in row_loads(glider[0]):
            ends = row(*glider, *loads)
            assert ends == row(*glider, *loads, aboard=all_of, arms=all_of)
            given += ends is not None
            for name, arms in judged.items():
                wrong[name] += ends != row(*glider, *loads, arms=arms)
    assert 8000 < given < 40000 and 1000 < min(wrong.values())


# The worked cases.

A = Weighing(1, 310000, 29900, 9500, 550000, 0)
C = Weighing(2, 310000, 280100, -9500, 550000, 0)
J_SHEET = Sheet(11200, 30000, 500000, 500000, 0, -123200, 0, 110000, 1000, -11200, 110000, 55000, 0, 0, 1)
H = (*G, H_CHANGE)
I_SHEET = G[1]._replace(front_arm=41625)


def mistakes():
    """The plates that the paper warns of."""
    assert rows_of(G, aboard=lambda tank: tank[-1:])[1] == (0, 50000, (64000, 92000))
    fine = (G[0], G[1]._replace(front_step=1), H_CHANGE)
    assert rows_of(fine)[0] == (0, 0, (63001, 87500))


def worked():
    lines = (
        b"0000.000 0000.000 0071.000 0092.000\n"
        b"0000.000 0050.000 0071.000 0092.000\n"
        b"0000.000 0100.000 -------- --------\n"
    )
    assert placard(G, bytes(109)) == (0, 108, 3, 1, lines + b"\0")
    assert ends_of(H)[0] == (64, 87)
    assert ends_of((G[0], I_SHEET)) == [None, None, None]
    assert ends_of((A, J_SHEET)) == ends_of((C, J_SHEET)) == [(69, 110), (54, 109), (40, 80)]
    mistakes()
    for label, steps in {
        "A": [A],
        "C": [C],
        "D": [Weighing(3, 355, 90, 50, 13350, 0)],
        "E": [Weighing(4, 460, 15, 3000, 10300, 0)],
        "F": [Weighing(1, 2, 1, 0, 50001, 0)],
        "G": G,
        "G, read back": [*G, AGAIN],
        "G, from its file": [READ_G],
        "G, by the gram": [G[0], G[1]._replace(front_step=1)],
        "H": H,
        "H, read back": [*H, AGAIN],
        "H, by the gram": [G[0], G[1]._replace(front_step=1), H_CHANGE],
        "I": [G[0], I_SHEET],
        "J": [A, J_SHEET],
        "J, by C": [C, J_SHEET],
        "J, read back": [A, J_SHEET, AGAIN],
        "K": [BACK],
        "K, read back": [AGAIN],
    }.items():
        printed(label, played(FRESH, steps))


# Buffers of each size, and the order of the refusals.


def sizes(label, steps, *lent):
    for n in lent:
        printed(f"{label} into {n}", played(FRESH, steps), n)


def buffers():
    full, over = sheet(greatest_rear=15, rear_step=1, capacity=15, water_step=1), sheet(capacity=101, water_step=1)
    sizes("nothing", [BACK], 0, 35, 36, 108, 576)
    sizes("a sheet", [sheet()], 0, 35, 36, 108, 576)
    sizes("a weighing", [weighing()], 0, 35, 36, 108, 576)
    sizes("G", G, 0, 1, 35, 36, 72)
    sizes("G", G, 106, 107, 108, 109, 144)
    sizes("one row", [level(), LAX], 0, 35, 36, 37, 72)
    sizes("256 rows", [weighing(), full], 0, 9180, 9215, 9216, 9217)
    sizes("257 rows", [weighing(), over._replace(greatest_rear=0, capacity=256)], 0, 36, 108, 576, 9216)
    sizes("306 rows behind 3", [*G, over], 0, 36, 107, 108, 9216)


# Document 000.


def front_limits(journal):
    """By front loads of 40, 45, .. 110 kg the least and the greatest rear load in whose row they are."""
    rows = [(rear, ends) for rear, _, ends in rows_of(journal) if ends]
    table = []
    for front in range(40000, 110001, 5000):
        rears = [rear // 1000 for rear, (low, high) in rows if low <= front <= high]
        table.append((min(rears), max(rears)))
    return table


def astir():
    """Its 88 and 85 kg with 3.0 and 6.0 kg of bars are not followed: 380 kg leaves 89 and 86. Its 67.9 kg for one bar is
    a slip, by the gram it is 67.768. The form's readings give 633.89 mm, and its text has 633.34. The water's arm and
    the seat's least load are in no document."""
    by_text = weighing(p=288000, q=0, a=63334, n=146700)
    dry = sheet(least_front=0, greatest_rear=0, capacity=0)
    wet = dry._replace(capacity=100000, water_step=1000)
    bar = Change(1500, -100000, 1)
    bars = [(by_text, dry) + n * (bar,) for n in range(5)]
    assert [ends_of(journal) for journal in bars] == [[(71, 92)], [(68, 90)], [(66, 89)], [(64, 87)], [(61, 86)]]
    assert rows_of((by_text, dry._replace(front_step=1), bar)) == [(0, 0, (67768, 90500))]
    waters = ends_of((by_text, wet))
    assert [waters[w] for w in (91, 87, 82, 77, 72, 71)] == [(71, most) for most in (71, 75, 80, 85, 90, 91)]
    assert waters[92] is None
    journal = in_turn("Astir CS", (by_text,), ("no bar", dry))
    in_turn("Astir CS", journal, *((f"bar {n}", bar) for n in range(1, 5)))
    printed("Astir CS, its form", add((weighing(p=288000, q=37300, a=9900, b=413000, n=146700),), dry))
    printed("Astir CS, its water", add((by_text,), wet), 9216)


def blanik():
    """Equation 13 has 300 kg for the empty weight, a slip: its results, and our rows, are those of 310 kg. Its table
    goes by front loads; all its figures come from our rows."""
    by_kilogram = (A, J_SHEET._replace(rear_step=1000))
    least = (107, 88, 69, 50, 31, 13, 0, 0, 0, 0, 0, 0, 0, 0, 0)
    most = (110, 110, 110, 110, 110, 110, 110, 110, 110, 105, 100, 95, 90, 80, 50)
    assert front_limits(by_kilogram) == list(zip(least, most))
    aerobatic = (A, J_SHEET._replace(dry=400000, wet=400000))
    assert ends_of(aerobatic)[0] == (69, 90)
    printed("Blanik, tens of kilograms", add((A,), J_SHEET._replace(rear_step=10000)))
    printed("Blanik, kilograms", add((A,), by_kilogram[1]), 9216)
    printed("Blanik, aerobatic", add((A,), aerobatic[1]))


def twin_astir():
    """The placard's least solo weight of 69 kg is a slip: the text, the bars' table and our row have 70."""
    twin = Weighing(1, 414700, 49300, 17300, 457000, 216100)
    front, rear, water = (-114000, 0, 110000, 1000), (1100, 110000, 10000), (0, 0, 1)
    by_tens = Sheet(26000, 46000, 650000, 650000, 470000, *front, *rear, *water)
    by_kilogram = by_tens._replace(rear_step=1000)
    least = (107, 89, 71, 53, 35, 17, 0, 0, 0, 0, 0, 0, 0, 0, 0)
    assert front_limits((twin, by_kilogram)) == [(low, 110) for low in least]
    solo, bar = by_tens._replace(greatest_rear=0), Change(1500, -160000, 1)
    bars = [(twin, solo) + n * (bar,) for n in range(7)]
    assert [ends_of(journal) for journal in bars] == [[(low, 110)] for low in (70, 68, 66, 64, 62, 60, 58)]
    printed("Twin Astir, tens of kilograms", add((twin,), by_tens))
    printed("Twin Astir, kilograms", add((twin,), by_kilogram), 9216)
    journal = in_turn("Twin Astir", (twin,), ("no bar", solo))
    in_turn("Twin Astir", journal, *((f"bar {n}", bar) for n in range(1, 7)))


def discus():
    """Lead in the fin. NLP 240 kg and a greatest weight of 525 kg are what its placards come from; the document takes
    the tank of 184.1 l for 184."""
    discus = weighing(p=231900, q=0, a=65188, n=113700)
    limits = {"fwd": 26000, "aft": 40000, "dry": 525000, "wet": 525000, "front_arm": -45000, "least_front": 0}
    seat = sheet(**limits, greatest_rear=0, capacity=184100, water_step=46000)
    any_seat = seat._replace(greatest_front=500000, capacity=0)
    lead = Change(4020, 410000, 1)
    assert ends_of((discus, any_seat)) == [(72, 126)] and ends_of((discus, any_seat, lead)) == [(89, 122)]
    assert ends_of((discus, seat)) == 4 * [(72, 110)] + [(72, 109)]
    assert ends_of((discus, seat, lead)) == 4 * [(89, 110)] + [(89, 105)]
    in_turn("Discus", (discus,), ("tank", seat), ("lead", lead))
    in_turn("Discus", (discus,), ("fuselage load", any_seat), ("lead", lead))


# Forty changes: weight and arm; the parts in the wing stand from 0 to 100000.

CREEPING_AFT = (
    *((200, 67000), (50, 222000), (250, -11000), (250, 20000), (120, 38000), (150, -113000), (250, -126000)),
    *((500, -92000), (120, -52000), (400, 87000), (-50, -126000), (50, 153000), (-300, 272000), (-600, 70000)),
    *((-400, 375000), (80, 346000), (80, 205000), (-250, 191000), (-500, 330000), (600, 401000), (-500, -103000)),
    *((500, -7000), (-300, -116000), (-300, 117000), (120, 165000), (-300, 336000), (-50, 290000), (200, -120000)),
    *((120, 179000), (50, 429000), (600, 106000), (500, 101000), (400, 221000), (-500, 19000), (120, 28000)),
    *((250, 264000), (150, 329000), (-150, 122000), (120, 265000), (150, 72000)),
)
CREEPING_FORWARD = (
    *((50, -124000), (-500, 369000), (150, 31000), (200, 39000), (500, 292000), (-200, 12000), (300, 205000)),
    *((150, -109000), (300, 239000), (50, 95000), (150, 99000), (400, -47000), (500, 27000), (-500, 400000)),
    *((-200, 156000), (200, 237000), (300, 9000), (400, 18000), (150, -103000), (-50, -91000), (-200, -31000)),
    *((-250, 229000), (80, 122000), (80, 434000), (-200, 159000), (-50, 280000), (-300, -132000), (-80, 213000)),
    *((120, 112000), (600, 205000), (120, 127000), (200, 7000), (-150, 91000), (80, 257000), (-300, -10000)),
    *((300, 379000), (-150, 401000), (50, 31000), (50, 182000), (-150, 368000)),
)


def rounded_balance(journal):
    """What a book gives that keeps one centre of gravity to the nearest unit and moves it with each change."""
    number, total, _, centre = centre_of_gravity(journal[:1])
    assert number == 0
    for entry in journal[1:]:
        if isinstance(entry, Change):
            _, total, _, centre = centre_of_gravity((Weighing(1, total // HALVES, 0, centre, 1, 0), entry))
    return Balance(total, total * centre, balance_of(journal).nonlifting)


def forty_changes():
    """With the centre creeping aft a rounded book's smallest load passes its largest, and all its rows are blank where
    70 kg are good. With the centre creeping forward it lets 70 kg fly that are too light."""
    book = weighing(p=288000, q=0, a=63334, n=146700)
    for title, pairs, fields, ours, rounded in (
        ("aft", CREEPING_AFT, {"front_arm": -47640, "dry": 360500, "wet": 470000}, (70, 70), None),
        ("forward", CREEPING_FORWARD, {"front_arm": -47110, "dry": 362000, "wet": 470000}, (71, 71), (70, 71)),
    ):
        changes = [Change(c, arm, 0 if 0 <= arm <= 100000 else 1) for c, arm in pairs]
        number, journal = played((book,), [sheet(least_front=0, greatest_rear=0, **fields), *changes])
        assert (number, len(changes)) == (0, 40)
        assert ends_of(journal) == 3 * [ours] and ends_of(journal, rounded_balance) == 3 * [rounded]
        printed(f"forty changes, creeping {title}", (number, journal))
        printed(f"forty changes, creeping {title}, read back", call(journal, AGAIN))


# The list.


def lists():
    g, g_sheet = G
    light, over = weighing(p=0, q=0, n=0), sheet(greatest_rear=0, rear_step=1, capacity=256, water_step=1)
    steps = [("weighing", g), ("no file", READ_CUT), ("sheet", g_sheet), ("nothing", Change(0, 5000, 0))]
    steps += [("change", H_CHANGE), ("read back", AGAIN), ("another weighing", SECOND), ("no weighing", light)]
    steps += [("change of it", Change(55, -700, 0)), ("no file", READ_CUT)] + 2 * [("taken back", BACK)]
    steps += [("257 rows", over)] + 2 * [("taken back", BACK)] + [("no file", READ_CUT), ("G's file", READ_G)]
    steps += [("another sheet", I_SHEET), ("no change", Change(-288000, 0, 0)), ("read back", AGAIN)]
    steps += [("taken back", BACK), ("change", H_CHANGE), ("G's file", READ_G)] + 3 * [("taken back", BACK)]
    steps += [("read back", AGAIN), ("no file", READ_CUT), ("sheet", g_sheet), ("change", H_CHANGE), ("weighing", g)]
    steps += [("change", H_CHANGE), ("another sheet", I_SHEET), ("taken back", BACK)]
    in_turn("list", FRESH, *steps)


def full_lists():
    g, g_sheet = G
    journal = printed("full, changes", repeated(G, Change(50, -100000, 1)))
    in_turn("full", journal, ("a change", H_CHANGE), ("read back", AGAIN), ("a sheet", g_sheet), ("taken back", BACK))
    journal = printed("full, sheets", repeated((g_sheet,), g_sheet))
    steps = [("a weighing", g), ("read back", AGAIN), ("taken back", BACK), ("the weighing", g), ("G's file", READ_G)]
    in_turn("full", journal, *steps)


# Front steps, weights and limits: a glider of 200 kg.


def front_steps():
    for label, least, greatest, step in (
        ("0 to 110", 0, 110000, 1000),
        ("55.5 to 110", 55500, 110000, 1000),
        ("55.001 to 110.999", 55001, 110999, 1000),
        ("56 to 56", 56000, 56000, 1000),
        ("none in 55.001 to 55.999", 55001, 55999, 1000),
        ("none in 55.5 to 55.5", 55500, 55500, 1000),
        ("none above 0 in 0 to 0", 0, 0, 1000),
        ("none above 0 in 0 to 0.999", 0, 999, 1000),
        ("0 to 1", 0, 1000, 1000),
        ("0.001 to 1", 1, 1000, 1000),
        ("1 to 110", 1000, 110000, 1000),
        ("none in 0.001 to 0.999", 1, 999, 1000),
        ("step 500, none above 0 in 0 to 499.999", 0, 499999, 500000),
        ("step 500, 0 to 500", 0, 500000, 500000),
        ("step 500, 500 to 500", 500000, 500000, 500000),
        ("step 500, none in 0.001 to 499.999", 1, 499999, 500000),
        ("step 499.999", 0, 500000, 499999),
        ("step 0.001, 0 to 500", 0, 500000, 1),
        ("step 0.001, none above 0 in 0 to 0", 0, 0, 1),
        ("step 0.001, 0 to 0.001", 0, 1, 1),
        ("step 0.001, 0.001 to 0.002", 1, 2, 1),
        ("step 0.001, 55.001 to 55.999", 55001, 55999, 1),
        ("step 0.007, 0.1 to 0.111", 100, 111, 7),
        ("step 0.007, none in 0.1 to 0.104", 100, 104, 7),
    ):
        s = lax(least_front=least, greatest_front=greatest, front_step=step)
        assert (ends_of((level(), s)) == [None]) == ("none" in label)
        printed(f"steps, {label}", add((level(),), s))


def weights():
    rears, waters = {"greatest_rear": 50000, "rear_step": 25000}, {"capacity": 100000, "water_step": 50000}
    sheets = (
        *((f"DRY {dry}", lax(dry=dry)) for dry in (290000, 289999, 201000, 200999, 199999, 1)),
        *((f"WET and DRY {dry}", lax(dry=dry, wet=dry)) for dry in (290000, 201000, 200999, 1)),
        *((f"NLP {nlp}", lax(nlp=nlp, greatest_front=90000)) for nlp in (0, 180000, 179999, 101000, 100999, 1)),
        ("DRY without water, WET with it", lax(dry=290000, wet=340000, **waters)),
        ("WET = DRY", lax(dry=290000, wet=290000, **waters)),
        ("a kilogram of water over WET", lax(dry=250000, wet=250000, capacity=51000, water_step=25500, front_step=1)),
        ("a gram of water over WET", lax(dry=201000, wet=201000, capacity=1)),
        ("DRY with rear loads", lax(dry=290000, **rears)),
        ("NLP with rear loads", lax(nlp=180000, **rears)),
        ("NLP with water", lax(nlp=180000, **waters)),
        ("NLP with both", lax(nlp=180000, **rears, **waters)),
        ("all with both", lax(nlp=180000, dry=270000, wet=310000, **rears, **waters)),
        ("DRY below G", sheet(dry=199999)),
        ("by the gram", lax(nlp=180001, dry=279999, wet=330007, front_step=1, **rears, **waters)),
    )
    cases("weights", (level(),), *sheets)
    for label, change in (("lifting", Change(10000, 0, 0)), ("non-lifting", Change(10000, 0, 1))):
        printed(f"weights, {label} part", played((level(),), [change, lax(nlp=180000)]))
    for n in (0, 1, 2, 200000):
        printed(f"weights, n {n}, NLP 2", played((level(n=n),), [fine(lax(nlp=2))]))


def nobody():
    """Rows where 0 alone would keep the limits are blank, and counted; the others begin at the next step."""
    rears, waters = {"greatest_rear": 50000, "rear_step": 25000}, {"capacity": 50000, "water_step": 25000}
    tight = lax(dry=250000, wet=250000)
    aft = lax(fwd=0, aft=20000, front_arm=40000, rear_arm=33000, **rears)
    fifty, half = (1, 50), (1, 25)
    for label, w, s, ends in (
        ("DRY", level(), lax(dry=200000), [None]),
        ("DRY a kilogram above", level(), lax(dry=201000), [(1, 1)]),
        ("DRY a gram above", level(), fine(lax(dry=200001)), [(0.001, 0.001)]),
        ("DRY below the first step", level(), lax(dry=699999, front_step=MOST_SEAT), [None]),
        ("DRY with rear loads", level(), lax(dry=250000, **rears), [fifty, half, None]),
        ("DRY with rear loads, by the gram", level(), fine(lax(dry=250000, **rears)), [(0.001, 50), (0.001, 25), None]),
        ("NLP with rear loads", level(), lax(nlp=150000, **rears), [fifty, half, None]),
        ("WET with water", level(), tight._replace(**waters), [fifty, half, None]),
        ("both", level(), tight._replace(**rears, **waters), [fifty, half, None, half] + 5 * [None]),
        ("least above 0", level(), tight._replace(least_front=1, **rears), [fifty, half, None]),
        ("FWD met", level(a=10000), lax(fwd=10000, front_arm=-10000), [None]),
        ("FWD met, water ahead", level(a=10000), lax(fwd=10000, front_arm=-10000, **waters), 3 * [None]),
        ("safe aft met", level(a=19000), lax(fwd=0, aft=20000, front_arm=50000), [None]),
        ("safe aft met by rear load", level(a=15500), aft, [(1, 33), (1, 16), None]),
    ):
        assert ends_of((w, s)) == ends, label
        printed(f"nobody, {label}", add((w,), s))
    journal = in_turn("nobody", (level(), lax(dry=201000)), ("a kilogram more", Change(1000, 0, 0)))
    in_turn("nobody", journal, ("read back", AGAIN), ("taken back", BACK), ("a gram less", Change(-1, 0, 0)))


def limit(label, a, sheet, **more):
    printed(f"limits, {label}", add((level(a=a, **more),), sheet))


def limits_met():
    """The load that meets a limit is kept, and with a moment of one more it is not."""
    aft = lax(fwd=0, aft=20000, front_arm=-1000)
    limit("aft met at 50", 24000, aft)
    limit("aft missed by one", 24000, aft, q=1)
    limit("aft missed by one, by the gram", 24000, aft._replace(front_step=1), q=1)
    forward = lax(fwd=10000, front_arm=-10000)
    limit("forward met at 80", 18000, forward)
    limit("forward missed by one", 18000, forward, m=4, p=200001, q=1)
    limit("forward missed by one, by the gram", 18000, forward._replace(front_step=1), m=4, p=200001, q=1)
    limit("forward met at 50, aft between steps", 24000, lax(fwd=0, aft=20000, front_arm=-96000))
    half = a_gram(fwd=25000, aft=42510, front_arm=41634)
    limit("safe aft 41634.5 met", 41634, half, p=1, q=1, n=0)
    limit("safe aft 41634.5 missed by half", 41635, half, p=1, q=1, n=0)
    limit("safe aft 0.95", 0, lax(fwd=0, aft=1))
    limit("safe aft 0.95, centre 1", 1, lax(fwd=0, aft=1))
    limit("safe aft 0.95 met", 0, a_gram(fwd=0, aft=1), p=19, q=19, n=0)
    limit("safe aft 0.95 missed", 0, a_gram(fwd=0, aft=1), p=20, q=20, n=0)


def ahead():
    """All arms ahead of the datum, and limits with the datum between them or on one."""
    s = lax(fwd=-42500, aft=-25000, front_arm=47500)
    limit("all ahead", -60000, s)
    limit("all ahead, by the gram", -60000, s._replace(front_step=1))
    thirds = {"greatest_rear": 60000, "rear_step": 30000, "capacity": 60000, "water_step": 30000}
    limit("all ahead, rear and water", -60000, s._replace(**thirds))
    limit("limits on both sides", -60000, lax(fwd=-5000, aft=5000, front_arm=47500))
    limit("FWD 0", -60000, lax(fwd=0, aft=5000, front_arm=47500))
    limit("AFT 0", -60000, lax(fwd=-5000, aft=0, front_arm=47500))


def front_arms():
    """Safe aft limit 29000. On a limit the load changes nothing of it: always or never."""
    for label, arm, centres in (
        ("ahead of FWD", -50000, (9999, 10299, 10300, 29000, 29001, 45000, 300000)),
        ("on FWD", 10000, (9999, 10000, 29000, 29001, 45000, 300000)),
        ("between the limits", 20000, (0, 5000, 10000, 29000, 40000, 60000)),
        ("on the safe aft limit", 29000, (5000, 10000, 29000, 29001, 40000)),
        ("between safe aft and AFT", 29500, (5000, 10000, 28997, 28998, 29001)),
        ("on AFT", 30000, (5000, 10000, 28900, 28995, 28996, 29001)),
        ("behind AFT", 50000, (5000, 10000, 25000, 28895, 28896, 29001)),
    ):
        s = lax(fwd=10000, aft=30000, front_arm=arm)
        for centre in centres:
            printed(f"front arm {label}, centre {centre}", add((s,), level(a=centre)))


def other_arms():
    """Rear loads and water on each side of the limits."""
    s = lax(fwd=10000, aft=30000, front_arm=-20000, greatest_rear=60000, rear_step=30000, capacity=60000)
    s = s._replace(water_step=30000)
    for rear in (-60000, 20000, 60000):
        for water in (-80000, 20000, 80000):
            label = f"rear arm {rear}, water arm {water}"
            printed(label, add((level(a=40000),), s._replace(rear_arm=rear, water_arm=water)))


# The ends of the ranges.


def greatest():
    """Each load, arm and weight at its greatest."""
    loads = {"greatest_rear": MOST_SEAT, "rear_step": MOST_SEAT, "capacity": MOST, "water_step": MOST}
    for label, total, front, rear, water, step in (
        ("all aft", 1, MOST, MOST, MOST, 7),
        ("all forward", 1, -MOST, -MOST, -MOST, 7),
        ("by turns", 1, MOST, -MOST, MOST, 7),
        ("1499 kg", 1499000, -MOST, MOST, -MOST, 1000),
        ("1500 kg", 1500000, -MOST, MOST, -MOST, 1000),
        ("1999 kg", 1999000, -MOST, MOST, -MOST, 1000),
        ("2000 kg", MOST, -MOST, MOST, -MOST, 1000),
    ):
        s = lax(front_arm=front, rear_arm=rear, water_arm=water, front_step=step, **loads)
        for a in (-MOST, 0, MOST):
            printed(f"greatest, {label}, centre {a}", add((s,), level(p=total, a=a, n=0)))


def narrowest():
    for label, arm, fwd, aft in (
        ("ahead", -MOST, -MOST, 1 - MOST),
        ("behind", MOST, MOST - 1, MOST),
        ("behind, on FWD", MOST - 1, MOST - 1, MOST),
    ):
        s = lax(fwd=fwd, aft=aft, front_arm=arm, front_step=7, water_arm=arm, capacity=MOST, water_step=1000000)
        printed(f"limits a unit apart, {label}", add((level(p=1, a=arm, n=0),), s))


def widest():
    """All but 1 g taken out at one arm and put in at the other, by turns; and then a seat of every arm."""
    for label, q, arm, b in (("greatest", MOST, MOST, MOST), ("least", 0, -MOST, 1)):
        out, back = Change(-1999999, -arm, 0), Change(1999999, arm, 0)
        far = lax(front_arm=-arm, rear_arm=-arm, greatest_rear=MOST_SEAT, rear_step=MOST_SEAT)
        steps = [far, Weighing(1, MOST, q, arm, b, 0)] + 30 * [out, back]
        printed(f"{label} moment, 1 g", played(FRESH, [*steps, out]))
        journal = printed(f"{label} moment, 64 entries", played(FRESH, [*steps, out, back, AGAIN]))
        printed(f"{label} moment, seat of every arm", played(journal, [BACK, Seat(-MOST, MOST), AGAIN]))


# Paired weighings. Totals of 288000 and 288001 g under 380 kg leave 91 kg, where G's leave 92.

AVERAGED = Paired(1, 309990, 29893, 310010, 29907, 9500, 550000, 0)


def half(**fields):
    """The glider of 200 kg with half a gram more."""
    return as_pair(level(), p2=200001)._replace(**fields)


def pair_plates():
    g, g_sheet = G
    assert placard((as_pair(g), g_sheet), bytes(108)) == placard(G, bytes(108))
    assert ends_of(PAIR)[0] == (71, 91) and rows_of((PAIR[0], fine(g_sheet)))[0] == (0, 0, (70151, 91999))
    assert ends_of((AVERAGED, J_SHEET)) == ends_of((A, J_SHEET))
    for label, steps in {
        "G as a pair": [as_pair(g), g_sheet],
        "G as a pair, read back": [as_pair(g), g_sheet, AGAIN],
        "288000 and 288001": PAIR,
        "288000 and 288001, read back": [*PAIR, AGAIN],
        "288000 and 288001, by the gram": [PAIR[0], fine(g_sheet)],
        "288001 and 288000": [as_pair(g, p=288001), g_sheet],
        "287999 and 288001": [as_pair(g, p=287999, p2=288001), g_sheet],
        "288000 and 288001, H": [*PAIR, H_CHANGE],
        "288000 and 288001, H by the gram": [PAIR[0], fine(g_sheet), H_CHANGE],
        "288000 and 288001, I": [PAIR[0], I_SHEET],
        "J averaged": [AVERAGED, J_SHEET],
        "J averaged, read back": [AVERAGED, J_SHEET, AGAIN],
    }.items():
        printed(f"pair, {label}", played(FRESH, steps))


def pair_weights():
    """Half a gram over DRY or WET is over it; the non-lifting weight never has a half."""
    waters, rears = {"capacity": 100000, "water_step": 50000}, {"greatest_rear": 50000, "rear_step": 25000}
    sheets = (
        *((f"DRY {dry}", lax(dry=dry)) for dry in (290000, 290001, 201000, 201001, 1)),
        *((f"DRY {dry}, by the gram", fine(lax(dry=dry))) for dry in (290000, 290001, 200001, 200002)),
        ("WET with water", lax(dry=290001, wet=340000, **waters)),
        ("WET with water, by the gram", fine(lax(dry=290000, wet=340000, **waters))),
        ("a gram of water over WET", fine(lax(dry=200002, wet=200002, capacity=1))),
        ("NLP 180000", lax(nlp=180000, **rears)),
        ("NLP 179999", lax(nlp=179999, **rears)),
        ("all with both", fine(lax(nlp=180001, dry=279999, wet=330007, **rears, **waters))),
    )
    cases("pair, half a gram", (half(),), *sheets)


def pair_limits():
    """A moment of a half more misses a limit that is met."""
    aft, forward = lax(fwd=0, aft=20000, front_arm=-1000), lax(fwd=10000, front_arm=-10000)
    met, more = as_pair(level(a=24000)), {"q2": 1}
    ahead, less = as_pair(level(a=18000)), {"m": 4, "p2": 200001, "q2": 1}
    narrow, least = a_gram(fwd=25000, aft=42510, front_arm=41635), a_gram(fwd=0, aft=1, front_arm=1)
    for label, w, s in (
        ("aft met at 50", met, aft),
        ("aft missed by a half", met._replace(**more), aft),
        ("aft missed by a half, by the gram", met._replace(**more), fine(aft)),
        ("forward met at 80", ahead, forward),
        ("forward missed by a half", ahead._replace(**less), forward),
        ("forward missed by a half, by the gram", ahead._replace(**less), fine(forward)),
        ("safe aft 41634.5 met", Paired(1, 1, 0, 1, 0, 41634, 1, 0), narrow),
        ("safe aft 41634.5 missed by a half", Paired(1, 1, 1, 1, 0, 41634, 1, 0), narrow),
        ("safe aft 41634.5 of three halves", Paired(1, 1, 0, 2, 0, 41634, 1, 0), narrow),
        ("safe aft 41634.5 of three halves, missed", Paired(1, 1, 0, 2, 1, 41634, 1, 0), narrow),
        ("safe aft 0.95 met", Paired(1, 9, 8, 9, 9, 0, 1, 0), least),
        ("safe aft 0.95 missed", Paired(1, 9, 9, 9, 9, 0, 1, 0), least),
        ("on the front arm", half(a=29000), lax(fwd=10000, aft=30000, front_arm=29000)),
        ("a half behind the front arm", half(a=29000, q=1), lax(fwd=10000, aft=30000, front_arm=29000)),
    ):
        printed(f"pair, limits, {label}", add((w,), s))


def pair_lists():
    g, g_sheet = G
    steps = [("weighing", g), ("sheet", g_sheet), ("a pair", PAIR[0]), ("change", H_CHANGE), ("read back", AGAIN)]
    steps += [("no pair", paired(p2=0, q2=0)), ("another pair", as_pair(SECOND, p2=356)), ("taken back", BACK)]
    steps += 3 * [("taken back", BACK)] + [("a pair alone", PAIRED), ("G's file", READ_G), ("no file", READ_CUT)]
    steps += [("a pair behind it", PAIR[0])] + 2 * [("taken back", BACK)]
    in_turn("pairs", FRESH, *steps)
    journal = printed("pairs, 63 sheets", repeated(FRESH, g_sheet))
    steps = [("the 64th", PAIR[0]), ("the 65th", PAIR[0]), ("read back", AGAIN), ("a change", H_CHANGE)]
    in_turn("pairs", journal, *steps, ("taken back", BACK))


# Seats. That of G moves 25 mm either way, as `SEAT` has it.


def by_arm(s, arm):
    """The same sheet with another front arm."""
    return s._replace(front_arm=arm)


def seat_plates():
    """Equal ends print as the front arm does, and the sheet's own arm counts no longer, wherever it is."""
    g, g_sheet = G
    still, far = Seat(-47500, -47500), Seat(41625, 41625)
    plain = placard(G, bytes(108))
    for s in (g_sheet, I_SHEET, by_arm(g_sheet, -MOST), by_arm(g_sheet, MOST)):
        assert placard((g, s, still), bytes(108)) == plain and ends_of((g, s, far)) == 3 * [None]
    assert ends_of((*G, SEAT)) == [(73, 92), (73, 92), None]
    assert rows_of((g, fine(g_sheet), SEAT))[0] == (0, 0, (72176, 92000))
    assert ends_of((A, J_SHEET, Seat(-123200, -123200))) == ends_of((A, J_SHEET))
    for label, steps in {
        "G, equal ends": [*G, still],
        "G, equal ends, read back": [*G, still, AGAIN],
        "G": [*G, SEAT],
        "G, read back": [*G, SEAT, AGAIN],
        "G, by the gram": [g, fine(g_sheet), SEAT],
        "G, from its arm aft": [*G, seat(lower=-47500)],
        "G, from its arm forward": [*G, seat(higher=-47500)],
        "G, its arm behind the seat": [g, by_arm(g_sheet, -44999), SEAT],
        "G, its arm ahead of the seat": [g, by_arm(g_sheet, -50001), SEAT],
        "G, its arm far behind": [g, by_arm(g_sheet, MOST), still],
        "G, its arm far ahead": [g, by_arm(g_sheet, -MOST), SEAT],
        "H": [*H, SEAT],
        "H, the seat first": [*G, SEAT, H_CHANGE],
        "H, by the gram": [g, fine(g_sheet), H_CHANGE, SEAT],
        "I": [g, I_SHEET, far],
        "I, in G's seat": [g, I_SHEET, SEAT],
        "G, in I's": [*G, far],
        "J, equal ends": [A, J_SHEET, Seat(-123200, -123200)],
        "J": [A, J_SHEET, Seat(-126000, -120000)],
        "J, read back": [A, J_SHEET, Seat(-126000, -120000), AGAIN],
        "288000 and 288001": [*PAIR, SEAT],
        "288000 and 288001, by the gram": [PAIR[0], fine(g_sheet), SEAT],
    }.items():
        printed(f"seat, {label}", played(FRESH, steps))


def seat_buffers():
    sizes("G with a seat", [*G, SEAT], 0, 107, 108, 109)
    sizes("a sheet and a seat", [G[1], SEAT], 0, 108)
    sizes("a seat without a sheet", [G[0], SEAT], 0, 108)


def common(first, second):
    """What two ranges have in common, or None."""
    if not first or not second:
        return None
    low, high = max(first[0], second[0]), min(first[1], second[1])
    return (low, high) if low <= high else None


def seat_case(label, w, s, f):
    """A row is what the rows of the two ends have in common; they are handed back."""
    alone = [ends_of((w, by_arm(s, arm)))[0] for arm in f]
    assert ends_of((w, s, f)) == [common(*alone)], label
    printed(f"seat {f.lower} to {f.higher}, {label}", played(FRESH, [s, f, w]))
    return alone


def seat_arms():
    """Ends on each side of the limits and on them: FWD 10000, safe aft limit 29000. In some rows either end is good for some
    load, and no load is good for both."""
    s, arms = lax(fwd=10000, aft=30000, front_arm=20000), (-50000, 10000, 20000, 29000, 50000)
    parted = 0
    for f in (Seat(lower, higher) for lower in arms for higher in arms if lower <= higher):
        for centre in (5000, 15000, 29000, 45000):
            alone = seat_case(f"centre {centre}", level(a=centre), s, f)
            parted += all(alone) and not common(*alone)
    assert 0 < parted


def seat_edges():
    """Ends on a limit and one beside it, with the glider on a limit or one inside."""
    s = lax(fwd=10000, aft=30000)
    for f in ((9999, 29000), (10000, 29001), (9999, 29001), (10000, 29000), (10001, 28999)):
        for centre in (10000, 10001, 28999, 29000):
            seat_case(f"centre {centre}", level(a=centre), s, Seat(*f))


def seat_limits_met():
    """A load that meets a limit at one end is kept, and with that end one further out it is not. The middle lets more pass."""
    forward, aft = lax(fwd=10000, greatest_front=130000), lax(fwd=0, aft=20000, greatest_front=130000)
    assert ends_of((level(a=24000), aft, Seat(-96000, -1000))) == [(50, 50)]
    assert ends_of((level(a=24000), aft, Seat(-96000, -1000)), arms=middle_of) == [(15, 98)]
    for label, w, s, ends in (
        ("forward at 80", level(a=18000), forward, [(-10000, 0), (-10001, 0), (-9999, 0), (-10000, 10000), (-10000, -10000)]),
        ("forward at 80, by the gram", level(a=18000), fine(forward), [(-10000, 0), (-10001, 0), (-9999, 0)]),
        ("aft at 50", level(a=24000), aft, [(-40000, -1000), (-40000, -999), (-40000, -1001), (-1000, -1000)]),
        ("aft at 50, by the gram", level(a=24000), fine(aft), [(-40000, -1000), (-40000, -999), (-40000, -1001)]),
        ("both at 50", level(a=24000), aft, [(-96000, -1000), (-96001, -1000), (-96000, -999), (-96001, -999)]),
        ("both at 50, by the gram", level(a=24000), fine(aft), [(-96000, -1000), (-95999, -1001), (-96001, -999)]),
        ("aft missed by one", level(a=24000, q=1), aft, [(-96000, -1000), (-96000, -1001)]),
        ("forward missed by one", level(m=4, p=200001, q=1, a=18000), forward, [(-10000, 0), (-9999, 0)]),
        ("safe aft 41634.5", level(p=1, q=1, a=41634, n=0), a_gram(fwd=25000, aft=42510), [(41633, 41634), (41634, 41635)]),
        ("safe aft 0.95", level(p=19, q=19, n=0), a_gram(fwd=0, aft=1), [(-19, 0), (-20, 0), (0, 1)]),
        ("nobody, FWD met", level(a=10000), forward, [(0, 20000), (9999, 9999)]),
        ("nobody, safe aft met", level(a=19000), aft, [(0, 20000), (19000, 19001), (0, 19000)]),
    ):
        for f in ends:
            seat_case(label, w, s, Seat(*f))


def seat_loads():
    """Rear loads and water on each side of the limits: the seat moves 100 mm either way."""
    thirds = {"greatest_rear": 60000, "rear_step": 30000, "capacity": 60000, "water_step": 30000}
    s, f = lax(fwd=10000, aft=30000, front_arm=-20000, **thirds), Seat(-30000, -10000)
    for rear in (-60000, 20000, 60000):
        for water in (-80000, 20000, 80000):
            label = f"seat, rear arm {rear}, water arm {water}"
            printed(label, played((level(a=40000),), [s._replace(rear_arm=rear, water_arm=water), f]))
    w, full = level(a=40000), sheet(greatest_rear=15, rear_step=1, capacity=15, water_step=1)
    printed("seat, weights bind", played((w,), [s._replace(nlp=180000, dry=270000, wet=310000), f]))
    printed("seat, 256 rows", played((weighing(),), [full, SEAT]), 9216)


def seat_extremes():
    """Ends as far out as they go, outside of all limits, and with limits a unit apart."""
    loads = {"greatest_rear": MOST_SEAT, "rear_step": MOST_SEAT, "capacity": 1000000, "water_step": 1000000}
    s = lax(rear_arm=-MOST, water_arm=MOST, **loads)
    for lower, higher in ((-MOST, MOST), (-MOST, -MOST), (MOST, MOST), (-MOST, 1 - MOST), (MOST - 1, MOST)):
        for total, a in ((1, 0), (499000, -MOST), (1499000, MOST)):
            label = f"seat {lower} to {higher}, {total} g, centre {a}"
            printed(label, played(FRESH, [s, Seat(lower, higher), level(p=total, a=a, n=0)]))
    s = lax(fwd=-1500000, aft=1500000)
    for a in (-700000, 0, 700000):
        seat_case(f"centre {a}", level(a=a), s, Seat(-MOST, MOST))
    for label, arm, fwd, aft in (("ahead", -MOST, -MOST, 1 - MOST), ("behind", MOST - 1, MOST - 1, MOST)):
        s = lax(fwd=fwd, aft=aft, greatest_front=70000, front_step=7, water_arm=arm, capacity=1000000, water_step=500000)
        for more in (0, 1):
            steps = [level(p=1, a=arm, n=0), s, Seat(arm, arm + more)]
            printed(f"seat, limits a unit apart, {label}, travel {more}", played(FRESH, steps))


def seat_lists():
    """A seat goes on over weighings and changes; a sheet ends it, even an equal one, until that is taken back."""
    g, g_sheet = G
    aft, still = seat(higher=-40000), Seat(-47500, -47500)
    steps = [("no sheet", SEAT), ("sheet", g_sheet), ("a seat", SEAT), ("weighing", g), ("change", H_CHANGE)]
    steps += [("a pair", PAIR[0]), ("reversed", seat(lower=-44999)), ("no arm", seat(higher=MOST + 1)), ("read back", AGAIN)]
    steps += [("another seat", aft), ("equal ends", still), ("read back", AGAIN)] + 2 * [("taken back", BACK)]
    steps += [("the same sheet", g_sheet), ("change", H_CHANGE)] + 2 * [("taken back", BACK)]
    steps += [("another sheet", I_SHEET), ("its seat", aft), ("read back", AGAIN), ("taken back", BACK), ("no file", READ_CUT)]
    steps += 4 * [("taken back", BACK)] + [("another seat", aft)] + 2 * [("taken back", BACK)]
    steps += [("weighing", g), ("taken back", BACK), ("taken back", BACK), ("no sheet left", SEAT)]
    in_turn("seats", FRESH, *steps)
    steps = [("G's file", READ_G), ("a seat", SEAT), ("no file", READ_CUT), ("taken back", BACK), ("a seat", SEAT)]
    in_turn("seats", (*G, aft), *steps, ("G's file", READ_G), ("taken back", BACK), ("no sheet", SEAT))


def full_of_seats():
    g, g_sheet = G
    journal = printed("seats, 62 sheets and a weighing", played((g,), 62 * [g_sheet]))
    steps = [("the 64th", SEAT), ("the 65th", SEAT), ("reversed", seat(lower=0)), ("read back", AGAIN), ("taken back", BACK)]
    in_turn("seats", journal, *steps, ("the 64th after all", seat(higher=-40000)))
    turns = 31 * [SEAT, seat(higher=-40000)]
    journal = printed("seats, 62 behind a sheet", played(G, turns))
    in_turn("seats", journal, ("a sheet", g_sheet), ("read back", AGAIN), ("taken back", BACK), ("a sheet", g_sheet))


# Gliders drawn by lot: the least of each number, and how many there are from there. The least load is drawn before the
# front arm.

LEAST_WEIGHING, WEIGHINGS = (1, 250000, 0, 10000, 400000, 100000), (1, 100000, 20000, 40000, 200000, 50000)
LEAST_SHEET = (0, 25000, 380000, 450000, 220000, 0, -110000, 80000, 1, -60000, 0, 25000, -20000, 0, 30000)
SHEETS = (20000, 20000, 70000, 90000, 60000, 40000, 80000, 40000, 900, 80000, 90000, 30000, 70000, 120000, 30000)
FACTOR, PRIME = 48271, 2**31 - 1


def drawn(seed, least, counts):
    state, numbers = seed * FACTOR % PRIME, []
    for low, count in zip(least, counts):
        state = state * FACTOR % PRIME
        numbers.append(low + state % count)
    return numbers


def glider_by_lot(seed):
    """A weighing and a sheet."""
    fwd, aft, dry, wet, nlp, least, arm, *rest = drawn(2 * seed + 2, LEAST_SHEET, SHEETS)
    w = Weighing(*drawn(2 * seed + 1, LEAST_WEIGHING, WEIGHINGS))
    return w, Sheet(fwd, aft, dry, wet, nlp, arm, least, *rest)


def seat_by_lot(seed, s):
    """Up to 79.99 mm ahead of the front arm, and up to as much behind it."""
    ahead, behind = drawn(seed, (0, 0), (8000, 8000))
    return Seat(s.front_arm - ahead, s.front_arm + behind)


def by_lot():
    """From the 50th on they are weighed twice: up to 999 g more on one scale, and up to 99 g on the other. From the 70th on
    they have a seat that moves."""
    rows = blank = 0
    for seed in range(90):
        w, s = glider_by_lot(seed)
        if 50 <= seed:
            more, behind = drawn(seed, (0, 0), (1000, 100))
            w = as_pair(w, p2=w.p + more, q2=w.q + behind)
        seats = [seat_by_lot(seed, s)] if 70 <= seed else []
        journal = printed(f"lot {seed}", played(FRESH, [w, s, *seats]))
        _, _, more_rows, more_blank, _ = placard(journal, bytes(9216))
        rows, blank = rows + more_rows, blank + more_blank
    assert 40 < blank < rows - 40


def report():
    agreement()
    worked()
    buffers()
    astir()
    discus()
    blanik()
    twin_astir()
    forty_changes()
    lists()
    full_lists()
    front_steps()
    weights()
    nobody()
    limits_met()
    ahead()
    front_arms()
    other_arms()
    greatest()
    narrowest()
    widest()
    pair_plates()
    pair_weights()
    pair_limits()
    pair_lists()
    seat_plates()
    seat_buffers()
    seat_arms()
    seat_edges()
    seat_limits_met()
    seat_loads()
    seat_extremes()
    seat_lists()
    full_of_seats()
    by_lot()
