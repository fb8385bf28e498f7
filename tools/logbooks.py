"""The logbook's language, read and written by the oracle's reckoning: what the program `logbooks` takes and prints, and the
samples' placards and equipment."""

import contextlib
import io
import re
import sys
from pathlib import Path

import cases
import files
import plates
from oracle import Change, Paired, Seat, Sheet, Weighing, add, centre_of_gravity, equipment_text, file_of, placard, read, undo
from oracle import HALVES, SIGNED, last_weighing, stations

ROOT = Path(__file__).parent.parent
SAMPLES = ROOT / "samples"

# The program `logbooks` runs with a copy of the samples, since no link may stand in the repository.
COPY = ROOT / "crates" / "logbooks" / "data"
NAMES = {"weighing": Weighing, "sheet": Sheet, "change": Change, "paired": Paired, "seat": Seat}
NAME_OF = {kind: name for name, kind in NAMES.items()}
SHORT = 160


# The language: each kind's lines by a pattern of its own. A number has at most eighteen digits.

PLAIN, NEGATIVE = "(?:0|[1-9][0-9]{0,17})", "(?:-[1-9][0-9]{0,17})"


def pattern(name, kind):
    fields = (f" ({PLAIN}|{NEGATIVE})" if field in SIGNED else f" ({PLAIN})" for field in kind._fields)
    return re.compile((name + "".join(fields)).encode())


PATTERNS = {kind: pattern(name, kind) for name, kind in NAMES.items()}


def said(line):
    """The entry that a line says, or None."""
    for kind, form in PATTERNS.items():
        found = form.fullmatch(line)
        if found:
            return kind(*map(int, found.groups()))
    return None


def called(journal, line):
    """What a line's call answers; a number of None: not understood."""
    if line == b"" or line.startswith(b"#"):
        return 0, journal
    if line == b"undo":
        return undo(journal)
    entry = said(line)
    return (None, journal) if entry is None else add(journal, entry)


def logbook(text):
    """The journal of a text, and how it fails, or None."""
    journal = ()
    for at, line in enumerate(text.split(b"\n"), 1):
        number, journal = called(journal, line)
        if number is None:
            return (), f"line {at}: not understood\n"
        if number:
            return (), f"line {at}: refused {number}\n"
    return journal, None


# Texts.


def entry_line(entry):
    return " ".join([NAME_OF[type(entry)], *map(str, entry)]) + "\n"


def grams(halves):
    """Half grams, with .5 behind the grams where there is a half."""
    whole, over = divmod(abs(halves), HALVES)
    return f"{'-' if halves < 0 else ''}{whole}{'.5' if over else ''}"


def listing(journal):
    lines = []
    for at, entry in enumerate(journal, 1):
        lines.append(entry_line(entry))
        if not isinstance(entry, (Sheet, Seat)):
            _, total, moment, centre = centre_of_gravity(journal[:at])
            lines.append(f"# total {grams(total)} moment {grams(moment)} centre {centre}\n")
    return "".join(lines).encode()


# Cases: lines that are in the language and lines that are not.

A = "weighing 1 310000 29900 9500 550000 0"
S = "sheet 11200 30000 500000 500000 0 -123200 0 110000 1000 -11200 110000 55000 0 0 1"
C = "change 4500 -100000 1"
P = "paired 1 310000 29900 310001 29901 9500 550000 0"
B = "seat -126000 -120000"

OF_A_LINE = (
    *("", "\n", "\n\n\n", "#", "# a comment", "#undo", "#\n#\n", " #", "# \xe9\n"),
    *("undo", "undo\n", "undo ", " undo", "undo 1", "Undo", "und", "undoo", "undone", "UNDO", "undo#", "undo\r"),
    *(A, S, A + "\n" + S, S + "\n" + A, A + "\n" + C, C, A + "\n" + C + "\nundo", A + "\nundo\nundo"),
    *("weighing", "weighing ", "sheet", "change", "w", "s", "c", "x", "1", "-", " ", "  ", "\t", "\r", "\x7f", "\xff"),
    *("weighing 1", "weighing 1 310000 29900 9500 550000", A + " ", A + " 0", A + "0", A + "#", A + " # light"),
    *(A + "\r", A + "\t", A + ".", A + ".0", A + "\n ", " " + A, A.replace(" ", "  ", 1), A.replace(" ", "\t", 1)),
    *(A.replace("9500 ", "9500  "), A.replace(" ", ","), A.replace("29900", "29_900"), A.replace("29900", "29,900")),
    *(A.replace("9500", "+9500"), A.replace("9500", "-9500"), A.replace("9500", "--9500"), A.replace("9500", "- 9500")),
    *(A.replace("9500", "09500"), A.replace("9500", "-09500"), A.replace("9500", "0"), A.replace("9500", "-0")),
    *(A.replace("9500", "00"), A.replace("9500", ""), A.replace("9500", "-"), A.replace("9500", "9500-")),
    *(A.replace("9500", "95o0"), A.replace("9500", "9:00"), A.replace("9500", "9/00"), A.replace("9500", "0x9500")),
    *(A.replace(" 1 ", " -1 "), A.replace("310000", "-310000"), A.replace("550000", "-550000"), A[:-1] + "-0"),
    *(A[:-1] + "01", A[:-1] + "-1", A.replace("weighing", "Weighing"), A.replace("weighing", "weighin")),
    *(A.replace("weighing", "weighings"), A.replace("weighing", "wweighing"), A.replace("weighing", "sheet")),
    *(A.replace("weighing", "change"), A.replace("weighing", "undo"), "weighing1 310000 29900 9500 550000 0"),
    *(S[:-2], S + " 1", S + " 1 2 3", S.replace("500000 0", "500000 -0", 1), S.replace("11200", "-11200", 1)),
    *(S.replace("110000", "-110000", 1), S.replace("sheet", "Sheet"), S.replace("sheet", "shee"), S + "\n" + S),
    *(A + "\n" + x for x in ("change 4500 -100000", C + " 1", C + " ", "change 4500 -100000 -1", "change +4500 0 1")),
    *(A + "\n" + x for x in ("change -4500 100000 0", "change 0 0 0", "change -0 0 0", "change 04500 0 0", "Change 1 0 0")),
    *(A + "\n" + x for x in ("change 999999999999999999 0 0", "change -999999999999999999 0 0", "change 1 2 3 4")),
    *(A + "\n" + x for x in ("change 1000000000000000000 0 0", "change -1000000000000000000 0 0", "change 1 0 2")),
    *(A + "\n" + x for x in ("change 9223372036854775807 0 0", "change -9223372036854775808 0 0", "change 4500\n-1 1")),
    *(A + "\n" + f"change {18 * d} 0 0" for d in "0123456789"),
    *(A + "\n" + f"change {19 * d} 0 0" for d in "0123456789"),
    *(A + "\n" + f"change 1 -{18 * d} 0" for d in "123456789"),
    *(A + "\n" + f"change 1 {200 * d} 0" for d in "019"),
    *(f"weighing 1 {p} 0 0 1 0" for p in (1, 2000000, 2000001, 4294967295, 4294967296, 10**18 - 1, 10**18, 2**63, 2**64)),
    *(A + "\n" + f"change 1 {arm} 0" for arm in (9, 10, 99, 100, 2000000, 2000001, -2000000, -2000001, -9, -10)),
)

# Paired weighings: what is no line, and comments with a half in total, in moment or in both.
OF_A_PAIR = (
    *(P, P + "\n" + C, P + "\n" + S, P + "\n" + A, A + "\n" + P, P + "\nundo", P + "\nundo\nundo", P + "\n" + P),
    *("p", "pa", "pair", "paired", "paired ", "pairs", "pairedd", "paired 1", P[:-2], P + " ", P + " 0", P + "0", P + "\r"),
    *(" " + P, P.replace("paired", "Paired"), P.replace("paired", "pair"), P.replace("paired", "weighing")),
    *(P.replace("paired", "change"), A.replace("weighing", "paired"), P.replace(" ", "  ", 1), P.replace(" ", ",")),
    *(P.replace(" 1 ", " -1 "), P.replace("310000", "-310000"), P.replace("29900", "-29900"), P[:-1] + "-0"),
    *(P.replace("310001", "-310001"), P.replace("310001", "0310001"), P.replace("29901", "-29901"), P[:-1] + "01"),
    *(P.replace("29901", "+29901"), P.replace("9500", "-9500"), P.replace("9500", "09500"), P.replace("9500", "-0")),
    *(P.replace("550000", "-550000"), P.replace("310001", "29900"), P.replace("310001", ""), P.replace("310001", "310_001")),
    *(f"paired 1 2 0 {p} 0 0 1 0" for p in (0, 1, 2000000, 2000001, 4294967296, 10**18 - 1, 10**18, 2**64)),
    *(f"paired 1 {n} 0 {n + 1} 0 0 1 {n + more}" for n in (1, 1999999) for more in (0, 1)),
    *(f"paired 1 1 0 1 1 {a} 1 0" for a in (-2000000, -2, -1, 0, 1, 2000000)),
    *(f"paired 1 1 0 2 {q} {a} 1 0" for q in (0, 1) for a in (-1, 0, 1)),
    *(f"paired 4 2000000 1999999 2000000 {q} -2000000 2000000 0" for q in (1999998, 1999999)),
    *(f"paired 1 3 0 {p} 0 0 1 0\nchange {c} 7 0" for p in (3, 4) for c in (-3, -2, -1, 1)),
)

# Seats: what is no line, beside `sheet`, which has the same first letter; and numbers that their call refuses.
SIGNS = ("0", "-0", "00", "+1", "01", "-01", "--1", "- 1", "1.0", "1,", "1_0", "0x1", "o", "-", "")
OF_A_SEAT = (
    *(B, S + "\n" + B, B + "\n" + S, A + "\n" + B, "# form\n\n" + B),
    *(S + "\n" + B + "\n" + x for x in (A, B, S, P, S + "\nundo", A + "\n" + C)),
    *(S + "\n" + B + "\n" + x for x in ("undo", "undo\nundo", "undo\nundo\n" + B, "undo\nundo\nundo")),
    *("s", "se", "sea", "seat", "seat ", "seats", "seatt", "sheat", "seet", "shea", "set", "Seat", "SEAT", "seat\t", "seat\r"),
    *(S + "\n" + x for x in ("seat", "seat ", "seat -1", "seat -1 ", "seat -1 2 ", "seat -1 2 3", "seat 1 2 3 4")),
    *(S + "\n" + B.replace("seat", x) for x in ("sheet", "Seat", "SEAT", "sEat", "sea", "seats", "s", "sheat", "seet", "set")),
    *(S + "\n" + B.replace("seat", x) for x in ("change", "undo", "weighing", "paired", "aseat")),
    *(S + "\n" + B.replace("seat", x) for x in (" seat", "#seat", "seat ", "seat\t")),
    *(S + "\n" + B + x for x in ("\r", "\t", ".", "#", " # aft")),
    *(S.replace("sheet", x) for x in ("seat", "sheat", "seet", "s", "se")),
    *(S + "\n" + f"seat {x} 2" for x in SIGNS),
    *(S + "\n" + f"seat -2 {x}" for x in SIGNS),
    *(S + "\n" + f"seat {x} 2000000" for x in (-2000001, -2000000, -9, -10, 9, 10, 99, 100, 2000000, 2000001)),
    *(S + "\n" + f"seat -2000000 {x}" for x in (-2000001, -2000000, -1999999, -1, 1, 1999999, 2000000, 2000001)),
    *(S + "\n" + f"seat {x}" for x in ("0 0", "1 0", "0 -1", "-1 -2", "2 1", "-120000 -126000", "2000001 -2000001")),
    *(S + "\n" + f"seat -{n * '9'} {n * '9'}" for n in (7, 17, 18, 19, 100)),
    *(S + "\n" + f"seat -{n} {n - 1}" for n in (2**31, 10**18, 2**63, 2**64)),
    *(S + "\n" + f"seat 0 {n}" for n in (2**32, 10**18 - 1, 10**18, 2**64)),
)

# Where a text stops, by the number of the line.
OF_LINES = (
    f"# form\n\n{A}\n# sheet\n{S}\n\nchange 0 0 0\n{C}\n",
    f"{A}\n{S}\n{C}\n\n\n\n\n# nine\nchange four\nundo\n",
    f"\n\n\n\n\n\n\n\n\n\n{C}\n{A}",
    f"{A}\n{S}\n{C}\nundo\n{C}\nundo\nundo\nundo\nundo\n{C}\n",
    f"{A}\n{S}\n{C}\nundo\n{C}\nundo\nundo\n{S}",
    f"{A}\r\n{S}\r\n",
    f"{A}\n{S}\n\x00\n",
    64 * f"{A}\n",
    65 * f"{A}\n",
    64 * f"{A}\n" + "undo\n" + f"{S}\n" + f"{S}\n",
    100 * "#\n" + 20 * f"{A}\nundo\n" + "undo\n",
    63 * f"{S}\n" + f"{P}\n",
    64 * f"{P}\n" + "undo\n" + f"{P}\n" + f"{P}\n",
    f"# again\n{P}\n# sheet\n{S}\n\n{P[:-1]}310001\n{C}\n",
    63 * f"{S}\n" + f"{B}\n",
    f"{S}\n" + 63 * f"{B}\n" + "undo\n" + f"{B}\n" + f"{B}\n",
    f"{A}\n# seat\n{B}\n{S}\n",
    f"{A}\n{S}\n{B}\n{S}\n# equal\nundo\n{B}\nundo\nundo\nundo\n{B}\n",
    f"{A}\n{S}\n{B}\n{P}\n{C}\n\nseat -120000 -126000\n",
    f"{S}\nundo\n{B}\n",
)


def text_of(journal, entry):
    """The lines of a journal, and of a call on it."""
    last = "undo\n" if entry is None else entry_line(entry)
    return "".join(map(entry_line, journal)) + last


def recorded():
    """The texts of the other programs' cases: each call with the journal that it is made on, and each file that is read."""
    texts = []

    def adding(journal, entry):
        texts.append(text_of(journal, entry))
        return add(journal, entry)

    def undoing(journal):
        texts.append(text_of(journal, None))
        return undo(journal)

    def reading(journal, data):
        number, found = read(journal, data)
        if number == 0:
            texts.append("".join(map(entry_line, found)))
        return number, found

    with contextlib.redirect_stdout(io.StringIO()):
        for module in (cases, files, plates):
            module.add, module.undo, module.read = adding, undoing, reading
            module.report()
            module.add, module.undo, module.read = add, undo, read
    return list(dict.fromkeys(texts))


def all_cases():
    """Of the recorded texts that are long every twentieth."""
    texts = recorded()
    short, long = [t for t in texts if len(t) <= 600], [t for t in texts if len(t) > 600]
    texts = [*OF_A_LINE, *OF_A_PAIR, *OF_A_SEAT, *OF_LINES, *short, *long[::20]]
    assert not any("~" in text for text in texts)
    return [text.encode("latin-1") for text in texts]


BLOCK = 16384


def in_blocks():
    """The cases, and where the next does not fit into a block a case of line feeds that fills it."""
    texts, left = [], BLOCK
    for text in all_cases():
        if left < len(text) + 2:
            texts.append((left - 1) * b"\n")
            left = BLOCK
        texts.append(text)
        left -= len(text) + 1
    return texts


def case_line(text):
    journal, failing = logbook(text)
    if failing:
        return failing.encode()
    data, shown = file_of(journal), listing(journal)
    assert read((), data) == (0, journal) and logbook(shown) == (journal, None)
    counts = f"file {len(data)} {files.byte_sum(data)} again text {len(shown)} {files.byte_sum(shown)}\n"
    return counts.encode() + (shown if len(shown) <= SHORT else b"")


# The samples.

IN_TURN = (
    *("astir_cs", "astir_cs_two_bars", "astir_cs_read_twice", "blanik_l13_normal", "blanik_l13_aerobatic", "twin_astir"),
    *("discus", "discus_tail_lead", "g102_astir_cs", "g103_twin_ii", "astir_cs_seat_back", "astir_cs_refitted"),
)


def sample(name):
    """The journal of a sample."""
    journal, failing = logbook((SAMPLES / f"{name}.txt").read_bytes())
    assert failing is None, (name, failing)
    return journal


def plate_of(name):
    number, length, rows, blank, after = placard(sample(name), bytes(9216))
    assert number == 0, (name, number)
    return rows, blank, after[:length]


def sample_line(name):
    rows, blank, plate = plate_of(name)
    length = len(file_of(sample(name)))
    placard_part = f"placard as stored, rows {rows} blank {blank}"
    return f"{name}.txt: {placard_part}, equipment as stored, file {length} again\n".encode()


def figures():
    """What the documents print of the same gliders. Half a gram more than the Astir's 288 kg leaves 91 kg, and where its seat
    back moves the plate begins where it is furthest aft."""
    assert plates.ends_of(sample("astir_cs"))[0] == (71, 92)
    assert plates.ends_of(sample("astir_cs_two_bars"))[0][0] == 66
    assert plates.ends_of(sample("astir_cs_read_twice"))[0] == (71, 91)
    *fixed, back = sample("astir_cs_seat_back")
    assert tuple(fixed) == sample("astir_cs") and plates.ends_of((*fixed, back))[0] == (73, 92)
    assert [plates.ends_of((*fixed, Seat(arm, arm)))[0][0] for arm in back] == [69, 73]
    least = (107, 88, 69, 50, 31, 13, 0, 0, 0, 0, 0, 0, 0, 0, 0)
    most = (110, 110, 110, 110, 110, 110, 110, 110, 110, 105, 100, 95, 90, 80, 50)
    weighed, limits = sample("blanik_l13_normal")
    by_kilogram = (weighed, limits._replace(rear_step=1000))
    assert plates.front_limits(by_kilogram) == list(zip(least, most))
    assert plates.ends_of(sample("blanik_l13_aerobatic"))[0] == (69, 90)
    least = (107, 89, 71, 53, 35, 17, 0, 0, 0, 0, 0, 0, 0, 0, 0)
    weighed, limits = sample("twin_astir")
    assert plates.front_limits((weighed, limits._replace(rear_step=1000))) == [(low, 110) for low in least]
    assert plates.ends_of(sample("discus"))[0] == (72, 110)
    assert plates.ends_of(sample("discus_tail_lead"))[0] == (89, 110)
    refitted = stations(last_weighing(sample("astir_cs_refitted"))[1])
    assert plates.ends_of(sample("astir_cs_refitted"))[0] == (67, 89)
    assert [at for at, c, part in refitted if c == 0] == [-61000] and [at for at, c, part in refitted if part not in (0, c)] == [35000]
    assert equipment_text(sample("astir_cs")) == "sum 0.000 0.000\n"
    assert equipment_text(sample("astir_cs_two_bars")) == "-1000.00 3.000 3.000\nsum 3.000 3.000\n"
    assert equipment_text(sample("discus_tail_lead")) == "4100.00 4.020 4.020\nsum 4.020 4.020\n"


# What the program takes and prints.


def report():
    """What `logbooks` prints."""
    figures()
    out = [case_line(text) for text in in_blocks()] + [sample_line(name) for name in IN_TURN]
    sys.stdout.buffer.write(b"".join(out))


def cases_taken():
    """What `logbooks` takes: a tilde behind each case."""
    sys.stdout.buffer.write(b"".join(text + b"~" for text in in_blocks()))


def texts():
    """The samples' placards and equipment, beside them, and the copy of all samples."""
    for name in IN_TURN:
        (SAMPLES / f"{name}.placard").write_bytes(plate_of(name)[2])
        (SAMPLES / f"{name}.equipment").write_text(equipment_text(sample(name)))
    for path in SAMPLES.iterdir():
        (COPY / path.name).write_bytes(path.read_bytes())
