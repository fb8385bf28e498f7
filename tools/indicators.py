"""What the program `indicators` takes and prints, by the oracle's reckoning. The lines of both are described in the program's
src/main.rt. Calls are written by the letters of the crate `script`, the indicator's by `i`, fields, and a message for each
reading; a float is written as its pattern, without the bytes of noughts at its end."""

import random
import struct
from math import nextafter

from cases import BACK, FIGURES, LEAST_I64, MOST_U64, PAIRED, numbers
from inventories import AFRESH, AGAIN, Cases, called, change, sheet, spelled, weighing
from oracle import LOAD, MOST_ENTRIES, MOVING, OVER, STABLE, UNSTEADY, Cell, Indicated, Message, Paired, centre_of_gravity
from oracle import in_grams, indicate, worth

NOUGHT, MINUS = 0, 1 << 63
MINUS_NOUGHT = MINUS | NOUGHT
LEAST, LEAST_NORMAL, INFINITY, NAN = 1, 1 << 52, 2047 << 52, 0x7FF8000000000000

# NaNs of both signs, quiet and signalling, with payloads.
NANS = (NAN, NAN | MINUS, INFINITY + 1, NAN + 1, INFINITY + (1 << 51) - 1, 2**63 - 1, 2**64 - 1, INFINITY + MINUS + 1)


def float_of(kilograms):
    """The pattern of the float nearest to so many kilograms."""
    return int.from_bytes(struct.pack(">d", kilograms), "big")


def next_above(pattern):
    """The pattern of the next float above one that is not below nought."""
    return pattern + 1


def next_below(pattern):
    """The pattern of the next float below one above nought."""
    return pattern - 1


def message(kilograms, rated, empty, state=STABLE):
    """The message of a reading, all by patterns."""
    return Message(bytes([state]) + kilograms.to_bytes(8, "big"), Cell(rated, empty))


def by_kilograms(kilograms, rated, empty):
    return message(*map(float_of, (kilograms, rated, empty)))


# An ordinary weighing by an indicator: its nets are the readings of the ordinary pair.
P, Q = by_kilograms(302.5, 500, 2.5), by_kilograms(31.25, 100, 1.25)
P2, Q2 = by_kilograms(302.501, 500, 2.5), by_kilograms(31.26, 100, 1.25)
INDICATED = Indicated(PAIRED.m, P, Q, P2, Q2, PAIRED.a, PAIRED.b, PAIRED.n)
NAMES = {"p": "p", "q": "q", "p2": "p'", "q2": "q'"}
READINGS = tuple(NAMES)


def indicated(**fields):
    return INDICATED._replace(**fields)


def pattern_spelled(pattern):
    return pattern.to_bytes(8, "big").rstrip(b"\0").hex() or "-"


def words(sent):
    return [sent.data.hex() or "-", *map(pattern_spelled, sent.cell)]


def message_spelled(sent, usual):
    """The bytes, the rating and the zero, each as a dot where it is the ordinary one, and nothing where all are."""
    return "" if sent == usual else " ".join("." if own == other else own for own, other in zip(words(sent), words(usual)))


def step_spelled(step):
    if not isinstance(step, Indicated):
        return spelled(step)
    other = [f"{field}{getattr(step, field)}" for field in "mabn" if getattr(step, field) != getattr(INDICATED, field)]
    messages = [message_spelled(getattr(step, field), getattr(INDICATED, field)) for field in READINGS]
    return "/".join([" ".join(["i", *other]), *messages]).rstrip("/")


def step_called(journal, step):
    return indicate(journal, step) if isinstance(step, Indicated) else called(journal, step)


def pair_at_end(journal):
    return " ".join(map(str, journal[-1])) if journal and isinstance(journal[-1], Paired) else "-"


class Lines(Cases):
    def case(self, label, *steps):
        """The last call's number."""
        last = 0
        for step in steps:
            last, self.journal = step_called(self.journal, step)
        self.taken.append(f"{label}: {','.join(map(step_spelled, steps))}")
        self.printed.append(f"{label}: {last}; {pair_at_end(self.journal)}; {numbers(self.journal)}")
        return last

    def fresh(self, label, **fields):
        """An ordinary weighing but for some fields, by a fresh record."""
        return self.case(label, AFRESH, indicated(**fields))

    def pair(self):
        return self.journal[-1]


# What a float is in grams: as the reading q, and as the zero of q' whose reading is 2000 kg. p and p' are 2000 kg.

HEAVY = by_kilograms(2000, 4000, 0)


def weighed(out, label, pattern):
    q, q2 = message(pattern, float_of(4000), NOUGHT), HEAVY._replace(cell=Cell(float_of(4000), pattern))
    return out.fresh(label, p=HEAVY, q=q, p2=HEAVY, q2=q2, n=0)


def in_range(out, label, pattern):
    """The grams of a load."""
    assert weighed(out, label, pattern) == 0, label
    grams = out.pair().q
    assert out.pair().q2 == 2000000 - grams
    return grams


def three(out, label, pattern):
    """The grams of a load, with those of the floats before and behind it at its sides."""
    below = in_range(out, f"the float before {label}", next_below(pattern))
    return below, in_range(out, label, pattern), in_range(out, f"the float behind {label}", next_above(pattern))


# The floats of these kilograms, and their grams.
FLOATS = {0.0025: 3, 0.0005: 1, 0.0055: 5, 0.0625: 62, 0.1875: 188, 2000: 2000000}


def named(out):
    out.note("Floats by their grams: 0.0025 kg lies above 2.5 g, 0.0055 below 5.5 g; by floats 1000 times each is a tie.")
    for kilograms, grams in FLOATS.items():
        assert in_range(out, f"{kilograms} kg", float_of(kilograms)) == grams
    assert weighed(out, "the float behind 2000 kg", next_above(float_of(2000))) == LOAD
    out.note("Halves of a gram in decimals, of which each float lies above or below.")
    for k in (1, 3, 4, 6, 7, 8, 9, 10, 99, 1023, 123456, 999999, 1999999):
        in_range(out, f"{k}.5 g", float_of((2 * k + 1) / 2000))


def ties(out):
    """Odd sixteenths of a kilogram: their grams are even, and those of the neighbours are the two numbers beside the tie."""
    out.note("Ties, which are the odd sixteenths of a kilogram, and the floats beside them.")
    for k in (1, 3, 5, 15, 17, 1599, 1601, 16383, 16385, 31997, 31999):
        below, tie, above = three(out, f"{k}/16 kg", float_of(k / 16))
        assert above == below + 1 and tie in (below, above) and tie % 2 == 0
    out.note("Eighths, which are whole grams, and thirty-seconds, which are a quarter off.")
    for k in (1, 3, 15999):
        assert in_range(out, f"{k}/8 kg", float_of(k / 8)) == 125 * k
    for k in (1, 3, 63999):
        in_range(out, f"{k}/32 kg", float_of(k / 32))


def exponents(out):
    """The least and the greatest float of each exponent from where grams begin to 2000 kg, and some of those far below."""
    out.note("Floats by their exponents.")
    for e in range(-13, 11):
        in_range(out, f"2^{e} kg", float_of(2.0**e))
        if e < 10:
            in_range(out, f"the float before 2^{e + 1} kg", next_below(float_of(2.0 ** (e + 1))))
    for e in (-14, -20, -52, -53, -64, -65, -100, -512, -1021):
        assert in_range(out, f"2^{e} kg", float_of(2.0**e)) == 0
    for label, pattern in {
        "nought": NOUGHT,
        "minus nought": MINUS_NOUGHT,
        "the least float": LEAST,
        "a float below the normal ones": 0x000F_EDCB_A987_6543,
        "the greatest float below the normal ones": next_below(LEAST_NORMAL),
        "the least normal float": LEAST_NORMAL,
    }.items():
        assert in_range(out, label, pattern) == 0


# Each reading in turn, with what brings each of the two numbers.

UNSTEADY_BYTES = {
    "no bytes": b"",
    "a byte": P.data[:1],
    "eight bytes": P.data[:8],
    "ten bytes": P.data + b"\0",
    "twelve bytes": b"\0\0\0" + P.data,
    "state 0": b"\0" + P.data[1:],
    "moving": bytes([MOVING]) + P.data[1:],
    "over": bytes([OVER]) + P.data[1:],
    "state 4": b"\x04" + P.data[1:],
    "state 255": b"\xff" + P.data[1:],
}
KG = {name: float_of(name) for name in (1.25, 30, 31.25, 50, 302.5, 2000, 4000, -1, -500)}
BAD_LOADS = {
    "a rating that is no number": (KG[302.5], NAN, KG[1.25]),
    "an infinite rating": (KG[302.5], INFINITY, KG[1.25]),
    "a rating below any": (KG[302.5], INFINITY | MINUS, KG[1.25]),
    "a rating below nought": (NOUGHT, MINUS | LEAST, NOUGHT),
    "a rating a float below the reading": (KG[302.5], next_below(KG[302.5]), KG[1.25]),
    "a reading that is no number": (NAN, KG[4000], KG[1.25]),
    "an infinite reading": (INFINITY, KG[4000], KG[1.25]),
    "a reading below nought": (MINUS | LEAST, KG[4000], NOUGHT),
    "a reading above 2000 kg": (next_above(KG[2000]), KG[4000], KG[1.25]),
    "a zero that is no number": (KG[302.5], KG[4000], NAN),
    "an infinite zero": (KG[302.5], KG[4000], INFINITY),
    "a zero below nought": (KG[302.5], KG[4000], MINUS | LEAST),
    "a zero above 2000 kg": (KG[2000], KG[4000], next_above(KG[2000])),
    "a net below nought": (KG[31.25], KG[4000], KG[302.5]),
}


def each_reading(out):
    out.note("What is 13, at each reading in turn.")
    for field in READINGS:
        for label, data in UNSTEADY_BYTES.items():
            cell = getattr(INDICATED, field).cell
            assert out.fresh(f"{NAMES[field]}, {label}", **{field: Message(data, cell)}) == UNSTEADY
    out.note("What is 14, at each reading in turn.")
    for field in READINGS:
        for label, patterns in BAD_LOADS.items():
            assert out.fresh(f"{NAMES[field]}, {label}", **{field: message(*patterns)}) == LOAD


def order(out):
    out.note("13 of any reading before 14 of any.")
    moving, bad = message(KG[30], KG[50], NOUGHT, MOVING), message(KG[50], KG[30], NOUGHT)
    for first in READINGS:
        for second in READINGS:
            if first != second:
                label = f"14 at {NAMES[first]} and 13 at {NAMES[second]}"
                assert out.fresh(label, **{first: bad, second: moving}) == UNSTEADY
    assert out.fresh("13 at all", **dict.fromkeys(READINGS, moving)) == UNSTEADY
    assert out.fresh("14 at all", **dict.fromkeys(READINGS, bad)) == LOAD
    out.note("Of a reading that moves or is over the float is not looked at, nor are rating and zero.")
    for pattern in (NAN, INFINITY, next_above(KG[2000]), KG[-1], MINUS_NOUGHT, *NANS[-2:]):
        for name, state in (("moving", MOVING), ("over", OVER)):
            assert out.fresh(f"{name} with {pattern:016x}", q2=message(pattern, NAN, KG[-1], state)) == UNSTEADY
    out.note("Then 9, 1, 2 and 3.")
    full = [weighing(), *(MOST_ENTRIES - 1) * [sheet()]]
    assert out.case("a full record, 13", AFRESH, *full, indicated(m=5, q2=moving, p=bad)) == UNSTEADY
    assert out.case("a full record, 14", indicated(m=5, q2=bad)) == LOAD
    assert out.case("a full record, neither", indicated(m=5, a=2000001)) == 9
    assert out.case("a full record, nothing else", indicated()) == 9
    assert out.case("one taken back", BACK, indicated()) == 0
    assert out.case("13 before all", AFRESH, indicated(m=5, a=2000001, b=0, n=MOST_U64, q=moving, p2=bad)) == UNSTEADY
    assert out.case("14 before those behind", indicated(m=5, a=2000001, b=0, n=MOST_U64, p2=bad)) == LOAD
    assert out.case("1 before 2 and 3", indicated(m=5, a=2000001, n=MOST_U64)) == 1
    assert out.case("2 before 3", indicated(a=2000001, n=MOST_U64)) == 2
    assert out.case("3 alone", indicated(n=MOST_U64)) == 3


def nans(out):
    out.note("NaNs, wherever a float stands.")
    for pattern in NANS:
        assert out.fresh(f"reading {pattern:016x}", p2=message(pattern, KG[4000], NOUGHT)) == LOAD
        assert out.fresh(f"rating {pattern:016x}", p2=message(KG[302.5], pattern, NOUGHT)) == LOAD
        assert out.fresh(f"zero {pattern:016x}", p2=message(KG[302.5], KG[4000], pattern)) == LOAD


def ratings(out):
    """The reading that is compared is the one that was sent: not its grams, and not what is left over the zero."""
    out.note("A rating is compared with the reading as it was sent.")
    hundred = by_kilograms(100.0004, 100, 0)
    assert in_grams(worth(int.from_bytes(hundred.data[1:], "big"))) == 100000
    assert out.fresh("a reading above the rating with its grams", q=hundred) == LOAD
    assert out.fresh("a reading above the rating, not its net", q=by_kilograms(101, 100, 50)) == LOAD
    third, most = float_of(nextafter(100 / 3, 0)), float_of(1.7976931348623157e308)
    for label, reading, rated, number in (
        ("the rating", KG[30], KG[30], 0),
        ("a float above the rating", next_above(KG[30]), KG[30], LOAD),
        ("a float below the rating", next_below(KG[30]), KG[30], 0),
        ("a float above a rating of many digits", next_above(third), third, LOAD),
        ("a rating of many digits", third, third, 0),
        ("2000 kg and their rating", KG[2000], KG[2000], 0),
        ("the greatest rating", KG[30], most, 0),
        ("the rating the least float", LEAST, LEAST, 0),
        ("the rating nought, the reading the least float", LEAST, NOUGHT, LOAD),
        ("the rating and the reading nought", NOUGHT, NOUGHT, 0),
        ("the rating minus nought, the reading nought", NOUGHT, MINUS_NOUGHT, 0),
        ("the rating nought, the reading minus nought", MINUS_NOUGHT, NOUGHT, 0),
        ("the rating and the reading minus nought", MINUS_NOUGHT, MINUS_NOUGHT, 0),
        ("the rating minus nought, the reading the least float", LEAST, MINUS_NOUGHT, LOAD),
        ("the rating below nought, the reading minus nought", MINUS_NOUGHT, MINUS | LEAST, LOAD),
        ("the rating far below nought", KG[30], KG[-500], LOAD),
    ):
        sent = message(reading, rated, NOUGHT)
        assert out.fresh(label, p=HEAVY, q=sent, p2=HEAVY, q2=sent, n=0) == number, label


def zeros(out):
    out.note("A zero is not compared with the rating.")
    assert out.fresh("a zero above the rating, turned round", m=4, q=by_kilograms(40, 50, 60), q2=by_kilograms(0, 1, 1.5)) == 0
    assert (out.pair().q, out.pair().q2) == (20000, 1500)
    assert out.fresh("a zero above the rating by less than a gram", q=by_kilograms(1.0001, 1.0001, 1.0002)) == 0
    assert out.fresh("a zero of 2000 kg", q=by_kilograms(2000, 2000, 2000)) == 0
    held = by_kilograms(1, 1, 2000)
    assert out.fresh("a zero of 2000 kg, turned round", m=4, p=HEAVY, q=held, p2=HEAVY, q2=held, n=0) == 0
    for label, empty in (("minus nought", MINUS_NOUGHT), ("the least float", LEAST), ("a float below 1.25 kg", KG[1.25] - 1)):
        assert out.fresh(f"a zero of {label}", q=message(KG[31.25], KG[50], empty)) == 0
    assert out.fresh("zero and reading minus nought", q=message(MINUS_NOUGHT, KG[50], MINUS_NOUGHT)) == 0


def nets(out):
    """Reading and zero are rounded before the one is taken off the other."""
    out.note("Nets are of whole grams.")
    for reading, empty, net in (
        (1.0001, 1.0002, 0),
        (1.0002, 1.0001, 0),
        (0.0004, 0.0005, None),
        (0.0005, 0.0004, 1),
        (1.0006, 0.0004, 1001),
        (1.0004, 0.0006, 999),
        (1.0625, 0.0625, 1000),
        (1.1875, 0.0625, 1126),
        (30, 30.0005, 0),
        (30, 30.0006, None),
        (30.0625, 30.0625, 0),
        (2000, 0.0005, 1999999),
    ):
        for m, kilograms in ((1, (reading, 4000, empty)), (4, (empty, 4000, reading))):
            sent = by_kilograms(*kilograms)
            label = f"{reading} kg over {empty} kg, by method {m}"
            number = out.fresh(label, m=m, p=HEAVY, q=sent, p2=HEAVY, q2=sent, n=0)
            assert number == (LOAD if net is None else 0) and (number or out.pair().q == net), label


def methods(out):
    out.note("Method 4 turns q and q' round, and neither p nor p'. No method but 1 to 4 is 1, with nets as by 1 to 3.")
    over, under = by_kilograms(31.25, 100, 1.25), by_kilograms(1.25, 100, 31.25)
    for m in (0, 1, 2, 3, 4, 5, 2**32 + 4, MOST_U64):
        wrong = 0 if 1 <= m <= 4 else 1
        turned = dict.fromkeys(("q", "q2"), under if m == 4 else over)
        assert out.fresh(f"method {m}", m=m, **turned) == wrong
        if not wrong:
            assert (out.pair().q, out.pair().q2) == (30000, 30000)
        for field in READINGS:
            way = "the other way round" if field in ("q", "q2") else "turned round"
            other = over if m == 4 and field in ("q", "q2") else under
            assert out.fresh(f"method {m}, {NAMES[field]} {way}", m=m, **(turned | {field: other})) == LOAD
    out.note("Worked cases, with their figures.")
    for name, p, q in (
        ("A and B", by_kilograms(310, 500, 0), by_kilograms(29.9, 50, 0)),
        ("E", by_kilograms(0.46, 500, 0), by_kilograms(0.005, 50, 0.02)),
    ):
        entry, figures = FIGURES[name]
        assert out.fresh(f"case {name}", m=entry.m, p=p, q=q, p2=p, q2=q, a=entry.a, b=entry.b, n=entry.n) == 0
        assert centre_of_gravity(out.journal) == figures


def behind(out):
    """What the paired weighing is refused for."""
    out.note("Behind the nets 1, 2 and 3.")
    most, nothing, gram = by_kilograms(2000, 2000, 0), by_kilograms(5, 50, 5), by_kilograms(0.001, 2000, 0)
    load, more = by_kilograms(30, 500, 0), by_kilograms(30.001, 50, 0)
    for label, number, fields in (
        ("q a gram above p", 1, {"p": load, "q": more, "n": 0}),
        ("q' a gram above p', by method 2", 1, {"m": 2, "p2": load, "q2": more, "n": 0}),
        ("q above p by less than a gram", 0, {"p": load, "q": by_kilograms(30.0004, 50, 0), "n": 0}),
        ("no total", 1, {"p": nothing, "q": nothing, "n": 0}),
        ("no second total, by method 3", 1, {"m": 3, "p2": nothing, "q2": nothing, "n": 0}),
        ("a total of a gram", 0, {"m": 3, "p2": nothing, "q2": gram, "n": 0}),
        ("the greatest total", 0, {"m": 3, "p": most, "q": nothing}),
        ("a gram above the greatest total", 1, {"m": 3, "p": most, "q": gram}),
        ("nothing lifted, by method 4", 0, {"m": 4, "p": most, "q": nothing, "p2": most, "q2": nothing}),
        ("all of it lifted, by method 4", 1, {"m": 4, "q": by_kilograms(0, 500, 300), "q2": nothing}),
        ("n the smaller total", 0, {"n": 300000}),
        ("n above the smaller total", 3, {"n": 300001}),
        ("n at most", 3, {"n": MOST_U64}),
        ("a the greatest", 0, {"a": 2000000}),
        ("a too great", 2, {"a": 2000001}),
        ("a at least", 2, {"a": LEAST_I64}),
        ("b nought", 2, {"b": 0}),
        ("b 1", 0, {"b": 1}),
        ("b the greatest", 0, {"b": 2000000}),
        ("b too great", 2, {"b": 2000001}),
        ("b at most", 2, {"b": MOST_U64}),
    ):
        assert out.fresh(label, **fields) == number, label


def in_a_list(out):
    out.note("What is accepted stands in the record as the pair, and what is refused leaves the record as it was.")
    moving = message(KG[30], KG[50], NOUGHT, MOVING)
    out.case("a weighing, a sheet and a change", AFRESH, weighing(), sheet(), change())
    assert out.case("then 13", indicated(p=moving)) == UNSTEADY
    assert out.case("then 14", indicated(p=by_kilograms(1, 2, 3))) == LOAD
    assert out.case("then 1", indicated(m=0)) == 1
    assert out.case("then one that is accepted", indicated()) == 0
    assert out.pair() == PAIRED
    assert out.case("read back from its own file", AGAIN) == 0
    assert out.pair() == PAIRED
    assert out.case("a change behind it", change(flag=1)) == 0
    assert out.case("a sheet behind it", sheet()) == 0
    assert out.case("the pair by numbers", PAIRED) == 0
    assert out.case("four taken back", BACK, BACK, BACK, BACK) == 0
    assert out.case("another with an odd total", indicated(p=by_kilograms(302.499, 500, 2.5))) == 0
    assert out.case("as often as there is room", *60 * [indicated()]) == 0
    assert out.case("once more", indicated()) == 9
    assert out.case("all taken back", *MOST_ENTRIES * [BACK]) == 0
    assert out.case("and once more", BACK) == 10
    assert out.case("13 on nothing", indicated(p=moving)) == UNSTEADY


def by_lot(out):
    """Weighings by any method whose floats have all their digits, some of them out of range."""
    out.note("Drawn by lot.")
    draw = random.Random(6)
    found = []
    for i in range(1, 31):
        m = draw.randint(1, 4)
        light, heavy = draw.uniform(0, 40), draw.uniform(200, 900)
        fields = {}
        for field in READINGS:
            load, empty = (heavy if field[0] == "p" else light) + draw.uniform(0, 1), draw.uniform(0, 8)
            turned = m == 4 and field[0] == "q"
            reading, zero = (empty, load) if turned else (load + empty, empty)
            rated = reading * draw.choice((0.9999999, *3 * (1,), *12 * (2,)))
            fields[field] = by_kilograms(reading, rated, zero)
        found.append(out.fresh(f"lot {i}", m=m, n=draw.choice((0, 100000, 400000)), **fields))
    assert found.count(0) > 10 and {3, LOAD} <= set(found), found


def lines():
    out = Lines()
    for part in (named, ties, exponents, each_reading, order, nans, ratings, zeros, nets, methods, behind, in_a_list, by_lot):
        part(out)
    return out.told_apart()


def taken():
    lines().print_taken()


def report():
    for line in lines().printed:
        print(line)
