"""What the program `files` takes and prints, by the oracle's reckoning. The lines of both are described in the program's
src/main.rt."""

from oracle import VERSION, Change, Paired, Seat, Sheet, Weighing, add, centre_of_gravity, entry_bytes, file_of, read, width
from oracle import write

FRESH = ()
MOST = 2000000
WORD = 2**32 - 1
ARMS = (-MOST - 1, -MOST, 0, MOST, MOST + 1, -(2**31))

# Entries by letters, so that a file is a word.
W = Weighing(m=2, p=310000, q=280100, a=-9500, b=550000, n=150000)
V = Weighing(m=3, p=355, q=90, a=50, b=13350, n=0)
P = Paired(m=2, p=310001, q=280100, p2=310000, q2=280102, a=-9500, b=550000, n=150000)
LIMITS, FRONT, WATER = (25000, 42500, 380000, 450000, 240000), (-47500, 55000, 110000, 1000), (30000, 100000, 50000)
S = Sheet(*LIMITS, *FRONT, 12000, 90000, 100000, *WATER)
C = Change(c=-4500, arm=-100000, flag=1)
D = Change(c=1, arm=0, flag=0)
B = Seat(lower=-50000, higher=-45000)
LETTERS = {
    **{"w": W, "v": V, "P": W._replace(p=0), "A": W._replace(b=0), "N": W._replace(n=310001)},
    **{"p": P, "I": P._replace(p=0), "J": P._replace(p2=0), "K": P._replace(b=0)},
    **{"n": P._replace(n=310000), "M": P._replace(n=310001)},
    **{"s": S, "r": S._replace(water_step=391), "S": S._replace(water_step=390)},
    **{"F": S._replace(fwd=42500), "T": S._replace(water_arm=2000001)},
    **{"c": C, "q": C._replace(c=-150000), "Q": C._replace(c=-150001)},
    **{"d": D, "l": D._replace(c=-160000), "L": D._replace(c=-160001), "g": D._replace(c=1690000)},
    **{"G": D._replace(c=1690001), "C": D._replace(c=0), "B": D._replace(arm=-2000001)},
    **{"b": B, "e": B._replace(higher=-50000), "f": Seat(-MOST, MOST), "R": B._replace(higher=-50001)},
    **{"Z": B._replace(lower=-MOST - 1), "Y": B._replace(higher=MOST + 1)},
}
KIND_ALONE = {**{str(kind): bytes([kind]) for kind in range(7)}, "/": b"\xff"}

# G and H, and a record that sheets fill.
G_SHEET = Sheet(*LIMITS, *FRONT, 0, 0, 1, *WATER)
G = (Weighing(1, 288000, 0, 63334, 500000, 140000), G_SHEET)
H_CHANGE = Change(4500, -100000, 1)
SHEETS = 64 * (G_SHEET,)

# G weighed twice, and G with a seat.
PAIR = (Paired(1, 288000, 0, 288001, 0, 63334, 500000, 140000), G_SHEET)
SEATED = (*G, B)


def headed(body, length, count, version=VERSION):
    """The bytes behind a header that says so many bytes, itself among them, and so many entries."""
    return ((length - 4) % 2**32).to_bytes(4, "big") + bytes([version, count % 256]) + body


def composed(letters, version=VERSION):
    body = b"".join(KIND_ALONE.get(letter) or entry_bytes(LETTERS[letter]) for letter in letters)
    return headed(body, 6 + len(body), len(letters), version)


# Cases: a line that the program takes, and the line that it prints.


def numbers(journal):
    return " ".join(map(str, centre_of_gravity(journal)))


def written_anew(data):
    """A file that was accepted, as it is written: of version 2."""
    return data[:4] + bytes([VERSION]) + data[5:]


def tried(label, data):
    """A file read into a fresh record: the number, or the centre of gravity. That the file afterwards is as it should be
    has no word in a line."""
    number, journal = read(FRESH, data)
    assert file_of(journal) == (file_of(FRESH) if number else written_anew(data))
    return f"t{data.hex()} {label}:", f"{label}: {number if number else numbers(journal)}"


def byte_sum(data):
    total = 0
    for byte in data:
        total = total % 1000003 * 257 + byte
    return total


def kept(label, call, arg="", calls=""):
    """What a call answered. A file that is read is the argument, and else there are calls."""
    number, journal = call
    data = file_of(journal)
    taken = f"c {label}: {calls}" if calls else f"r{arg} {label}:"
    return taken, f"{label}: {number} {numbers(journal)} 0 {len(data)} {byte_sum(data)}"


# The worked cases, as the record's calls make them: by the letters of the crate `script`.

CHANGED = "c c4500 a-100000 f1"
CALLS = {"K": "=", "G": "=,w p288000 q0 a63334 n140000,s b0 n0 t1"}
CALLS |= {"H": f"{CALLS['G']},{CHANGED}", "64 sheets": ",".join(["=", *64 * ["s b0 n0 t1"]])}
CALLS |= {"pair": "=,p p288000 q0 P288001 Q0 a63334 n140000,s b0 n0 t1", "seat": f"{CALLS['G']},a"}
CALLS |= {"63 sheets and a seat": f"{','.join(['=', *63 * ['s b0 n0 t1']])},a"}
RECORDS = {"K": FRESH, "G": G, "H": (*G, H_CHANGE), "64 sheets": SHEETS, "pair": PAIR, "seat": SEATED}
RECORDS |= {"63 sheets and a seat": (*SHEETS[1:], B)}


def shown(label, journal, calls):
    data = file_of(journal)
    return f"w {label}: {calls}", f"{label}: {numbers(journal)} 0 {len(data)} {data.hex()}"


def worked():
    assert file_of(FRESH).hex(" ") == "00 00 00 02 02 00"
    assert centre_of_gravity(G) == (0, 576000, 576000 * 63334, 63334)
    assert centre_of_gravity(PAIR) == (0, 576001, 576001 * 63334, 63334)
    assert [len(file_of(journal)) for journal in (G, PAIR, SEATED, SHEETS)] == [89, 97, 98, 3910]
    assert file_of(SEATED)[-9:].hex(" ") == "05 ff ff 3c b0 ff ff 50 38"
    for label in ("K", "G", "H", "pair", "seat"):
        journal, calls = RECORDS[label], CALLS[label]
        yield shown(label, journal, calls)
        yield shown(f"{label}, read back", read(FRESH, file_of(journal))[1], f"{calls},r")


# Short files with a byte or a number altered.


def every_byte(letters, places, version=VERSION):
    data = composed(letters, version)
    of_version = "" if version == VERSION else f" of version {version}"
    for at in places:
        x = data[at]
        sums = [(x + more) % 256 for more in (1, 128, 255)]
        for y in sums + [y for y in (0, 1, 127, 128, 255) if y not in (x, *sums)]:
            yield tried(f"[{letters}]{of_version} byte {at}, {y}", data[:at] + bytes([y]) + data[at + 1 :])


def number_altered(at, number, data):
    return tried(f"number at {at} {number % 2**32}", data)


def place_of(entries, entry, field):
    """Where a field of an entry is in the file of the entries."""
    fields = entry._fields[: entry._fields.index(field)]
    return len(file_of(entries[: entries.index(entry)])) + 1 + sum(map(width, fields))


def each_other(entries, *fields):
    """The file of some entries with a field of one of them altered, by each of the numbers behind it."""
    for entry, field, *others in fields:
        for other in others:
            changed = entry._replace(**{field: other})
            data = file_of([changed if x is entry else x for x in entries])
            yield number_altered(place_of(entries, entry, field), other, data)


def every_number():
    entries = (W, S, C)
    for length in (0, 94, 95, 96, 351, WORD):
        yield number_altered(0, length, headed(file_of(entries)[6:], length + 4, 3))
    yield from each_other(
        entries,
        (W, "p", 0, 280099, 280100, MOST, MOST + 1, WORD),
        (W, "q", 0, 150000, 310000, 310001, MOST + 1, WORD),
        (W, "a", *ARMS),
        (W, "b", 0, 1, MOST, MOST + 1, 2**31, WORD),
        (W, "n", 0, 4499, 4500, 310000, 310001, WORD),
        (S, "fwd", -MOST - 1, -MOST, 42499, 42500, 42501, -(2**31)),
        (S, "aft", -MOST, 25000, 25001, MOST, MOST + 1, -(2**31)),
        (S, "dry", 0, 1, 450000, 450001, 2**31, WORD),
        (S, "wet", 0, 379999, 380000, MOST, MOST + 1, WORD),
        (S, "nlp", 0, 1, MOST, MOST + 1, 2**31, WORD),
        (S, "front_arm", *ARMS),
        (S, "least_front", 0, 1, 110000, 110001, 500000, WORD),
        (S, "greatest_front", 0, 54999, 55000, 500000, 500001, WORD),
        (S, "front_step", 0, 1, 2, 500000, 500001, WORD),
        (S, "rear_arm", *ARMS),
        (S, "greatest_rear", 0, 1, 500000, 500001, MOST + 1, WORD),
        (S, "rear_step", 0, 1058, 1059, 500000, 500001, WORD),
        (S, "water_arm", *ARMS),
        (S, "capacity", 0, 1, MOST, MOST + 1, 2**31, WORD),
        (S, "water_step", 0, 390, 391, MOST, MOST + 1, WORD),
        (C, "c", -MOST - 1, -150001, -150000, 0, 1690000, 1690001),
        (C, "arm", *ARMS),
    )


def every_number_of_a_pair():
    """Behind it a change of c -4500, flag 1."""
    yield from each_other(
        (P, C),
        (P, "p", 0, 280099, 280100, MOST, MOST + 1, WORD),
        (P, "q", 0, 310001, 310002, MOST + 1, 2**31, WORD),
        (P, "p2", 0, 280101, 280102, MOST, MOST + 1, WORD),
        (P, "q2", 0, 310000, 310001, MOST + 1, 2**31, WORD),
        (P, "a", *ARMS),
        (P, "b", 0, 1, MOST, MOST + 1, 2**31, WORD),
        (P, "n", 0, 4499, 4500, 310000, 310001, WORD),
        (C, "c", -MOST - 1, -150001, -150000, 0, 1689999, 1690000),
    )


def every_number_of_a_seat():
    """Behind its sheet; the other end is -45000 or -50000."""
    yield from each_other(
        (S, B),
        (B, "lower", -MOST - 1, -MOST, -45001, -45000, -44999, 0, MOST, MOST + 1, -(2**31), 2**31 - 1),
        (B, "higher", -MOST - 1, -MOST, -50001, -50000, -49999, 0, MOST, MOST + 1, -(2**31), 2**31 - 1),
    )


def altered():
    yield from every_byte("", range(6))
    yield from every_byte("wc", range(38))
    yield from every_byte("s", range(6, 67))
    yield from every_byte("p", range(36))
    yield from every_byte("sb", range(67, 76))
    yield from every_byte("sb", [0, 1, 2, 3, 4, 5, 6])
    yield from every_byte("wsc", range(7))
    yield from every_byte("wsc", [28])
    yield from every_byte("wsc", [89])
    yield from every_byte("", range(6), version=1)
    yield from every_byte("wc", range(4, 7), version=1)
    yield from every_byte("p", [4], version=1)
    yield from every_byte("sb", [4, 5, 67], version=1)
    yield from every_number()
    yield from every_number_of_a_pair()
    yield from every_number_of_a_seat()


# Files cut off, or with a byte 0 more, and with other counts than their own.


def cut():
    for letters, lengths, counts in (
        ("", range(8), range(3)),
        ("w", range(27, 30), range(3)),
        ("s", range(66, 69), range(3)),
        ("p", range(35, 38), range(3)),
        ("sb", range(67, 79), range(1, 4)),
        ("wsc", range(101), range(1, 4)),
        (64 * "s", [3909], [64]),
        (64 * "s", [3911], [64]),
        ("w" + 63 * "d", [658], range(63, 66)),
        ("w" + 64 * "d", [668], range(64, 67)),
        ("w" + 62 * "d" + "p", [678], [64]),
        ("p" + 64 * "d", [676], [65]),
        ("s" + 63 * "b", [634], range(63, 66)),
        ("s" + 64 * "b", [643], range(64, 67)),
    ):
        data = composed(letters) + bytes(2)
        for n in lengths:
            yield tried(f"[{letters}] first {n}", data[:n])
            for count in counts:
                yield tried(f"[{letters}] first {n}, {count}", headed(data[6:], n, count)[:n])


# Entries in turn.

PLAIN = (
    "w v P A N wP wA wN vP wsP Pw Aw Nw wv vw wvP",
    "s r S F T ws sw Ss sS rS Sr wS wSs wsS SwS wF wFs wT Tw sT",
    "c d sc cw dw scw wc vc vd wvc vwc wvd wC wB wCw wBv wcc wscs wcwc",
    "wl wL wlc wld wlL wll wLw wg wG wgd wgG wGs wq wQ wqQ wqc",
    "0 1 2 3 / 0w /w w0 w1 w2 w3 w/ w0c ws/ wsc0 wsc1 wsc2 wsc3",
)
WITH_PAIRS = (
    "p n I J K M pI pJ pK pM Ip Jp Kp Mp wp pw wJ wM pP pN pp wpw pwp vpw spn",
    "pc pd ps psc cp dp wpc pwc pl pL pll plL pg pG pgG pq pQ pqQ nl nd nc nq",
    "4 5 4w 5w w4 w5 p4 p5 s4w wsc4 wsc5 psc4 4p p0 p/",
)
WITH_SEATS = (
    "b e f sb se sf sR sZ sY bs wb wbs sbb sbe sbR sRb swb wsb sbw sbp sbc wsbc wscb sbs sbsb sbsR ssb swbs",
    "wsbw wsbp psb psbc wsbl wsbL wsbg wsbG wsbq wsbQ bsb wbsb Rs sF sFb Sb sSb srb sTb vsb wsfe wsef",
    "5 6 s5 s6 sb5 sb6 sb0 sb1 sb2 sb4 sb/ 6b s6b b5 b6 wsb6 wsbc5 w6 ws5",
)
OF_VERSION_1 = (
    "w v P A N s r S F T c sc ws sw wS wsS wv wc wvc wC wB wl wL wg wG wq wQ wsc wscs 0 1 2 3 w0 w1 w2 w3 w/ wsc0 "
    "p n J wp pw ps wsp pc psc wcp 4 5 w4 wsc4 b sb se wsb sbs wsbc wscb sR s5 s6 psb"
)


def turns():
    """In version 1 there is no pair and no seat: a file that has one is none."""
    yield tried("[64 s]", composed(64 * "s"))
    yield tried("[65 s]", composed(65 * "s"))
    yield tried("[63 s, b]", composed(63 * "s" + "b"))
    yield tried("[64 s, b]", composed(64 * "s" + "b"))
    for letters in " ".join((*PLAIN, *WITH_PAIRS, *WITH_SEATS)).split():
        yield tried(f"[{letters}]", composed(letters))
    for letters in OF_VERSION_1.split():
        yield tried(f"[{letters}] of version 1", composed(letters, version=1))
    for version in (0, 3, 4, 255):
        for letters in ("ws", "ps", "sb"):
            yield tried(f"[{letters}] of version {version}", composed(letters, version))


# Records that files are read into, and that changes are made to then.


def read_in_turn(start, words):
    journal = RECORDS[start]
    yield kept(start, (0, journal), calls=CALLS[start])
    for word in words:
        version = 1 if word.startswith("!") else VERSION
        data = b"" if word in ("+", "-") else composed(word.lstrip("!"), version)
        number, journal = add(journal, H_CHANGE) if word == "+" else read(journal, data)
        yield kept(f"[{word}]", (number, journal), data.hex(), CHANGED if word == "+" else "")


def records():
    """Each word's file is read, that of a word with ! in version 1; - is no bytes, and + is a change, by its call."""
    for start, *words in (
        ("64 sheets", "wsS", "", "+", "cw", "vs", "+", "wS", "+"),
        ("64 sheets", "wsc", "+", "v/", "+"),
        ("G", "+", "-", "wC", "+", "", "+", "w", "+"),
        ("G", "!wsc", "+", "!wp", "!", "+", "!vs", "+", "p", "+", "!w", "+"),
        ("pair", "+", "!wsc", "+", "psc", "+", "!psc", "+", "!", "wJ"),
        ("seat", "+", "wb", "+", "wsb", "+", "!wsb", "sR", "sbp", "+", "", "sb", "!ws"),
        ("63 sheets and a seat", "sb", "sY", "wsbc", "+"),
    ):
        yield list(read_in_turn(start, words))


# Writing into buffers.


def written_into(label, *lent):
    """The first bytes of a longer buffer of AA are lent; 16 behind them are looked at."""
    for n in lent:
        number, length, after = write(RECORDS[label], n * b"\xaa")
        stay = (after + 16 * b"\xaa")[length:].count(0xAA)
        answer = f"{number} {length} {byte_sum(after[:length])} {stay}"
        yield f"i{n} {label} into {n}: {CALLS[label]}", f"{label} into {n}: {answer}"


def buffers():
    yield from written_into("K", 0, 1, 5, 6, 7)
    yield from written_into("G", 0, 6, 88, 89, 90)
    yield from written_into("H", 0, 89, 98, 99, 128)
    yield from written_into("64 sheets", 0, 6, 99, 3909, 3910)
    yield from written_into("pair", 0, 89, 96, 97, 128)
    yield from written_into("seat", 0, 89, 97, 98, 128)
    yield from written_into("63 sheets and a seat", 3849, 3857, 3858, 3910)


def cases():
    """Lists of cases of which each goes on from the record that the one before left."""
    for part in (worked, altered, cut, turns):
        yield from ([case] for case in part())
    yield from records()
    yield from ([case] for case in buffers())


BLOCK = 16384


def taken():
    """The program takes blocks of whole lists, filled up with line feeds."""
    block = ""
    for lines in ("".join(f"{line}\n" for line, _ in group) for group in cases()):
        if BLOCK < len(block) + len(lines):
            print(block.ljust(BLOCK, "\n"), end="")
            block = ""
        block += lines
    print(block, end="")


def report():
    for group in cases():
        for _, line in group:
            print(line)
