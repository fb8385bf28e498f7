"""What the programs `placard`, `show`, `equipment` and `logbook_to_record` take and must print, by the oracle's reckoning: case G,
the longest file, one byte more, and a placard of 256 rows, from a file of version 1. `full_file`, `long_file` and `full_plate`
are `placard` on other input. `show` has every kind of entry, `equipment` the sample that has most of it, and `logbook_to_record`
makes the longest file, with seats taken back on the way."""

from pathlib import Path

from files import G, G_SHEET, H_CHANGE, PAIR
from logbooks import entry_line, listing, logbook, sample
from oracle import FILE, MOST_ENTRIES, MOST_ROWS, UNWEIGHED, Seat, Sheet, Weighing, equipment_text, file_of, last_weighing
from oracle import placard, read

CRATES = Path(__file__).parent.parent / "crates"
LONGEST_FILE, LONGEST_PLACARD = 3910, 9216

# 64 sheets, no two of them alike.
SHEETS = tuple(G_SHEET._replace(greatest_front=110000 + 1000 * i) for i in range(64))

# A logbook of them, with a seat behind each that is taken back.
SEAT = Seat(-50000, -45000)
LOGBOOK = "".join(f"{entry_line(s)}{entry_line(SEAT)}undo\n" for s in SHEETS[:-1]).encode() + entry_line(SHEETS[-1]).encode()

# All kinds of entries by turns, as many as there may be.
KINDS = (*G, SEAT, H_CHANGE, PAIR[0], Seat(-47500, -47500), SHEETS[1], Seat(-2000000, 2000000))
MIXED = KINDS * (MOST_ENTRIES // len(KINDS))

# A two-seater with a row for each of 16 rear loads and 16 amounts of water.
TWO_SEATER = Sheet(11200, 30000, 500000, 520000, 0, -123200, 55000, 110000, 1000, -11200, 120000, 8000, 60000, 75000, 5000)
PLATE = (Weighing(1, 310000, 29900, 9500, 550000, 0), TWO_SEATER)


def read_whole(data):
    """The record's file that a program takes."""
    return read((), data) if len(data) <= LONGEST_FILE else (FILE, ())


def refusal(number):
    return f"refused {number}\n".encode()


def printed(data):
    """What `placard` prints."""
    number, journal = read_whole(data)
    if number == 0:
        number, length, _, _, after = placard(journal, bytes(LONGEST_PLACARD))
    return after[:length] if number == 0 else refusal(number)


def equipment_printed(data):
    """What `equipment` prints."""
    number, journal = read_whole(data)
    if number == 0 and last_weighing(journal) is None:
        number = UNWEIGHED
    return equipment_text(journal).encode() if number == 0 else refusal(number)


def sizes():
    """Each input is as long as its program wants it; of the plate's rows some are blank and most are not."""
    assert len(file_of(SHEETS)) == LONGEST_FILE and len(set(SHEETS)) == 64
    assert printed(file_of(SHEETS)) == equipment_printed(file_of(SHEETS)) == b"refused 7\n"
    assert equipment_printed(file_of(SHEETS) + b"\0") == b"refused 12\n"
    _, length, rows, blank, _ = placard(PLATE, bytes(LONGEST_PLACARD))
    assert (length, rows, blank) == (LONGEST_PLACARD, MOST_ROWS, 30)
    assert logbook(LOGBOOK) == (SHEETS, None)
    assert len(MIXED) == MOST_ENTRIES and read((), file_of(MIXED)) == (0, MIXED) and logbook(listing(MIXED)) == (MIXED, None)


def write():
    sizes()
    full = file_of(SHEETS)
    taken = {"placard": file_of(G), "full_file": full, "long_file": full + b"\0", "full_plate": file_of(PLATE, version=1)}
    stored = {program: (data, printed(data)) for program, data in taken.items()}
    stored |= {"show": (file_of(MIXED), listing(MIXED)), "logbook_to_record": (LOGBOOK, full)}
    refitted = file_of(sample("astir_cs_refitted"))
    stored |= {"equipment": (refitted, equipment_printed(refitted))}
    for program, (stdin, stdout) in stored.items():
        (CRATES / program / "stdin").write_bytes(stdin)
        (CRATES / program / "stdout").write_bytes(stdout)
