#!/usr/bin/env python3
"""Prints pay file cases with their answers, one a line; README.md has the form.

Each refusal is written here as the rules have it, and must be what elmd.py gives.
"""
from dataclasses import dataclass
from hashlib import shake_128
from pathlib import Path

from elmd import (FRONT, PAPER, Refusal, cipher_of, file_of, filled, first_value, hex_text, open_file, pieces,
                  read_file, read_line, seal, settings_bytes, stream_of, write_file)

VECTORS = Path(__file__).resolve().parent.parent / "crates/vectors/data"
ROOMY = 4096
lines = []


def some(count, name):
    """Bytes that look like chance and are the same each time."""
    return shake_128(str(name).encode()).digest(count)


def remark(text):
    lines.append("# " + text)


def case(fields, call, shown, wanted, layered=False):
    """`wanted` is none where the call is to be accepted, a number, or 38 with its check."""
    try:
        said, got = shown(call()), None
    except Refusal as refusal:
        got = (38, refusal.check) if refusal.number == 38 else refusal.number
        said = f"R {refusal.number}"
        if layered:
            said += " " + refusal.layer
        if refusal.check:
            said += f" {refusal.check}"
    if got != wanted:
        raise AssertionError(f"{got}, not {wanted}: {fields}")
    lines.append(" ".join(str(field) for field in fields) + " " + said)


def write_case(cipher, key, shed, week, settings, nonce, message, room, wanted=None):
    case(("W", cipher, hex_text(key), shed, week, hex_text(settings), hex_text(nonce), hex_text(message), room),
         lambda: write_file(cipher_of(cipher, key), shed, week, settings, nonce, message, room),
         lambda file: "F " + hex_text(file), wanted)


def open_case(cipher, key, file, room, wanted=None):
    case(("O", cipher, hex_text(key), hex_text(file), room),
         lambda: open_file(cipher_of(cipher, key), file, room),
         lambda message: "M " + hex_text(message), wanted, layered=True)


def read_case(file, wanted=None):
    case(("P", hex_text(file)), lambda: read_file(file),
         lambda found: ",".join(f"{kind}:{place}:{size}" for kind, place, size in found), wanted)


# Files to change.

VERSION, HEADING_SIZE, STREAM_SIZE, NONCE, LABEL, T, F, TAG_BITS, SPARE, MARK = 0, 1, 5, 9, 17, 18, 20, 21, 22, 25


def patched(file, changes):
    """The file with other bytes, in digits, at the places named."""
    for place, digits in changes.items():
        new = bytes.fromhex(digits)
        file = file[:place] + new + file[place + len(new):]
    return file


@dataclass
class Sealed:
    """A file with what it was made of."""
    label: int
    key: bytes
    nonce: bytes
    settings: bytes
    message: bytes
    file: bytes

    @property
    def room(self):
        return 16 * len(pieces(self.message))

    def place(self, part):
        return next(place for kind, place, _ in read_file(self.file) if kind == part)

    def spoilt(self, *spots):
        """The file with one bit changed at each spot: a part's name and the byte in it, from its end if below 0."""
        file = bytearray(self.file)
        for part, byte in spots:
            _, place, size = next(found for found in read_file(self.file) if found[0] == part)
            file[place + byte % size] ^= 1
        return bytes(file)

    def opened(self, file=None, room=None, wanted=None, cipher=None):
        open_case(self.label if cipher is None else cipher, self.key, self.file if file is None else file,
                  self.room if room is None else room, wanted)


def sealed(label, t, f, message, heading=b"123", last=None, tag_size=None):
    """`last` is a last block with mark 0 in place of the message's, whatever its filling."""
    if isinstance(message, int):
        message = some(message, ("message", label, t, f, message))
    key, nonce = some(16, ("key", label, t, f)), some(8, ("nonce", label, t, f))
    settings, cipher = settings_bytes(label, t, f), cipher_of(label, key)
    stream, mark = seal(cipher, settings, nonce, heading, message, ROOMY)
    if last is not None:
        blocks = [filled(piece) for piece in pieces(message)[:-1]] + [int(last, 16)]
        value = first_value(cipher, settings, nonce, heading)
        stream, mark = stream_of(cipher, t, value, blocks, 0, tag_size or 16), 0
    return Sealed(label, key, nonce, settings, message, file_of(nonce, settings, mark, heading, stream))


# The groups.

ROWS = [(10, 0, 0, 1), (10, 0, 1, 15), (10, 1, 0, 16), (10, 1, 1, 17), (10, 2, 0, 31), (10, 2, 1, 32),
        (10, 3, 0, 33), (10, 3, 1, 48), (10, 127, 0, 100), (10, 127, 1, 1), (6, 0, 0, 17), (6, 0, 1, 33),
        (6, 1, 0, 48), (6, 1, 1, 100), (6, 2, 1, 15), (6, 3, 0, 16), (32, 0, 1, 48), (32, 1, 0, 33),
        (32, 2, 0, 100), (32, 2, 1, 31), (32, 3, 1, 100), (32, 127, 0, 32), (10, 127, 1, 2103)]
SHEDS = [(1, 1), (9999, 53), (12, 3), (1, 23), (10, 10), (100, 9), (9000, 40)]


def accepted():
    remark("written, opened and read: every t and f, message lengths about whole blocks; room exactly enough")
    for i, (label, t, f, size) in enumerate(ROWS):
        shed, week = SHEDS[i % len(SHEDS)]
        made = sealed(label, t, f, size, b"%d%d" % (shed, week))
        write_case(label, made.key, shed, week, made.settings, made.nonce, made.message, len(made.file))
        made.opened()
        if i % 2 == 0:
            read_case(made.file)
    remark("more room than needed; headings that write does not make: none, 40 bytes, 16 bytes")
    made = sealed(10, 2, 1, 33)
    write_case(10, made.key, 12, 3, made.settings, made.nonce, made.message, len(made.file) + 1)
    made.opened(room=made.room + 1)
    for heading in (b"", some(40, "heading"), some(16, "heading")):
        made = sealed(32, 2, 0, 48, heading)
        made.opened()
        read_case(made.file)


KEY, NUMBER, MESSAGE, GOOD = some(16, "w key"), some(8, "w nonce"), some(33, "w message"), settings_bytes(10, 2, 1)
SIZE = FRONT + 3 + 16 * 4 + 1


def write_tried(wanted, changes=None, cipher=10, shed=12, week=3, message=MESSAGE, room=SIZE):
    """A write of 33 bytes with something else than it needs; `changes` are the settings'."""
    write_case(cipher, KEY, shed, week, patched(GOOD, changes or {}), NUMBER, message, room, wanted)


def writes_refused():
    remark("write refused: one cause each, at its edges")
    for shed in (0, 10000, 65537):
        write_tried(42, shed=shed)
    for week in (0, 54, 257):
        write_tried(43, week=week)
    for cipher, label in ((10, "06"), (6, "0a"), (10, "20"), (32, "0a"), (PAPER, "0a"), (10, "ff"), (10, "00")):
        write_tried(11, {0: label}, cipher=cipher)
    for t in ("0080", "0100", "ff7f"):
        write_tried(12, {1: t})
    for byte in ("02", "03", "80", "ff"):
        write_tried(13, {3: byte})
    for byte in ("00", "7f", "81"):
        write_tried(14, {4: byte})
    for spare in ("800000", "000100", "000001"):
        write_tried(15, {5: spare})
    write_tried(41, {0: "ff"}, cipher=PAPER)
    write_tried(22, message=b"")
    for room in (0, SIZE - FRONT, SIZE - 1):
        write_tried(24, room=room)


WRITE_FAULTS = [(42, {"shed": 0}), (43, {"week": 54}), (11, {}), (12, {1: "0080"}), (13, {3: "03"}), (14, {4: "7f"}),
                (15, {5: "000001"}), (41, {0: "ff"}), (22, {"message": b""}), (24, {"room": 0}), (None, {})]


def write_with(faults):
    """The first of these faults is the one to be given."""
    wanted, every = faults[0][0], {}
    for _, fault in faults:
        every.update(fault)
    changes = {place: every.pop(place) for place in (0, 1, 3, 4, 5) if place in every}
    paper = 0 in changes and wanted in (12, 13, 14, 15, 41)
    write_tried(wanted, changes, cipher=PAPER if paper else 10, **every)


def writes_in_order():
    remark("write refused: every cause at once, then the first one mended, line by line")
    for i in range(len(WRITE_FAULTS)):
        write_with(WRITE_FAULTS[i:])
    remark("write refused: two causes")
    for pair in ((42, 43), (42, 24), (43, 12), (12, 13), (13, 14), (14, 15), (12, 41), (15, 41), (41, 22), (41, 24),
                 (22, 24)):
        write_with([fault for fault in WRITE_FAULTS if fault[0] in pair])
    write_tried(42, {0: "06"}, shed=0)
    write_tried(43, {0: "06"}, week=0)
    write_tried(11, {0: "06", 1: "0080"})
    write_tried(11, {0: "ff", 5: "000001"})
    write_tried(11, {0: "06"}, message=b"")


LADDER = sealed(10, 1, 1, 52)
BAD_CHECK, BAD_TAG = ({LADDER.place(part): f"{LADDER.file[LADDER.place(part)] ^ 1:02x}"} for part in ("check2", "tag"))
FILE_FAULTS = [(52, {VERSION: "02"}), (53, {MARK: "02"}), (54, {HEADING_SIZE: "00010001"}),
               (55, {STREAM_SIZE: "00000001"}), (11, {}), (12, {T: "0080"}), (13, {F: "03"}), (14, {TAG_BITS: "7f"}),
               (15, {SPARE: "000001"}), (41, {LABEL: "ff"}), (32, {MARK: "01"}), (37, {}), ((38, 2), BAD_CHECK),
               (40, BAD_TAG), (None, {})]


def file_with(faults):
    """Of two faults at one place the earlier stands."""
    changes = {}
    for _, change in reversed(faults):
        changes.update(change)
    return patched(LADDER.file, changes)


def files_in_order():
    remark("open and read refused: every cause at once, then the first one mended, line by line")
    short = LADDER.room - 1
    LADDER.opened(file_with(FILE_FAULTS)[:25], short, 51)
    read_case(file_with(FILE_FAULTS)[:25], 51)
    for i, (wanted, _) in enumerate(FILE_FAULTS):
        file = file_with(FILE_FAULTS[i:])
        cipher = PAPER if wanted in (12, 13, 14, 15, 41) else 10
        LADDER.opened(file, LADDER.room if wanted in ((38, 2), 40, None) else short, wanted, cipher)
        if wanted in (52, 53, 54, 55, 12, 13, 14, 15, 32, None):
            read_case(file, wanted)
    read_case(patched(LADDER.file, BAD_CHECK | BAD_TAG))


def files_with_two():
    remark("open and read refused: two causes")
    for pair in ((52, 53), (53, 54), (54, 55), (55, 12), (55, 32), (14, 15), (15, 32)):
        opened_and_read(LADDER, file_with([fault for fault in FILE_FAULTS if fault[0] in pair]), pair[0])
    for pair in ((12, 41), (13, 41), (14, 41), (15, 41), (41, 32)):
        LADDER.opened(file_with([fault for fault in FILE_FAULTS if fault[0] in pair]), wanted=pair[0], cipher=PAPER)
    for first, changes in ((55, {LABEL: "ff", STREAM_SIZE: "00000001"}), (11, {LABEL: "ff", T: "0080"}),
                           (11, {LABEL: "ff", SPARE: "000001"}), (11, {LABEL: "06", MARK: "01"})):
        LADDER.opened(patched(LADDER.file, changes), wanted=first)
    LADDER.opened(patched(LADDER.file, {MARK: "01"}), 0, 32)
    LADDER.opened(patched(LADDER.file, BAD_CHECK), LADDER.room - 1, 37)
    LADDER.opened(patched(LADDER.file, BAD_TAG), LADDER.room - 1, 37)


def opened_and_read(made, file, wanted):
    made.opened(file, wanted=wanted)
    read_case(file, wanted)


def files_refused():
    made = sealed(10, 2, 1, 20)
    file, stream_size = made.file, len(made.file) - FRONT - 3
    remark("short files: 0, 1, 25 and 26 bytes, and 25 with another version")
    for cut in (b"", file[:1], file[:25], patched(file[:25], {VERSION: "00"})):
        opened_and_read(made, cut, 51)
    opened_and_read(made, file[:26], 55)
    opened_and_read(made, patched(file[:26], {HEADING_SIZE: "0000000000000000"}), 32)
    remark("version, mark, heading length, lengths")
    for changes, number in (({VERSION: "00"}, 52), ({VERSION: "ff"}, 52), ({MARK: "ff"}, 53),
                            ({HEADING_SIZE: "01000003"}, 54), ({HEADING_SIZE: "ffffffff"}, 54),
                            ({HEADING_SIZE: "00010000"}, 55), ({HEADING_SIZE: "00000002"}, 55),
                            ({STREAM_SIZE: f"{stream_size + 1:08x}"}, 55),
                            ({STREAM_SIZE: f"{1 << 24 | stream_size:08x}"}, 55), ({STREAM_SIZE: "ffffffff"}, 55)):
        opened_and_read(made, patched(file, changes), number)
    opened_and_read(made, file + b"\0", 55)
    opened_and_read(made, file[:-1], 55)
    remark("lengths whose sum with the front's 26 is the file's length and 2^32 more")
    for cut, heading in ((file, 65536), (file, stream_size + 4), (file[:26], 26)):
        sizes = f"{heading:08x}{(1 << 32) + len(cut) - FRONT - heading:08x}"
        opened_and_read(made, patched(cut, {HEADING_SIZE: sizes}), 55)
    remark("length fields swapped, and shifted by a byte and a block: the sum is right")
    opened_and_read(made, patched(file, {HEADING_SIZE: f"{stream_size:08x}00000003"}), 32)
    made.opened(patched(file, {HEADING_SIZE: f"00000004{stream_size - 1:08x}"}), wanted=40)
    made.opened(patched(file, {HEADING_SIZE: f"00000013{stream_size - 16:08x}"}), wanted=40)


def settings_refused():
    made = sealed(10, 2, 1, 20)
    remark("settings of a file, at their edges")
    for changes, number in (({T: "0100"}, 12), ({T: "ffff"}, 12), ({F: "02"}, 13), ({F: "81"}, 13),
                            ({TAG_BITS: "00"}, 14), ({TAG_BITS: "81"}, 14), ({SPARE: "010000"}, 15),
                            ({SPARE: "000100"}, 15)):
        opened_and_read(made, patched(made.file, changes), number)
    remark("labels: each cipher with a file of another; 41 is for the paper cipher's own; read has neither 11 nor 41")
    for cipher in (6, 32, PAPER):
        made.opened(wanted=11, cipher=cipher)
    for label in ("00", "0b", "ff"):
        made.opened(patched(made.file, {LABEL: label}), wanted=11)
        read_case(patched(made.file, {LABEL: label}))
    paper = sealed(PAPER, 1, 0, 32)
    for room in (0, 32):
        paper.opened(room=room, wanted=41)
    paper.opened(wanted=11, cipher=32)
    read_case(paper.file)


LENGTHS = [(10, 0, 0, 0, 1, 32), (10, 0, 0, 16, 1, 32), (10, 0, 0, 17, 0, 32), (10, 0, 0, 32, 0, None),
           (10, 0, 0, 33, 0, 32), (10, 0, 1, 16, 1, 32), (10, 0, 1, 17, 1, 32), (10, 0, 1, 17, 0, None),
           (10, 0, 1, 32, 0, 32), (10, 0, 1, 32, 1, None), (6, 1, 0, 48, 0, 32), (6, 1, 0, 48, 1, 32),
           (6, 1, 0, 64, 1, None), (6, 1, 1, 33, 0, 32), (6, 1, 1, 48, 1, 32), (6, 1, 1, 49, 0, None),
           (32, 3, 0, 64, 1, None), (32, 3, 0, 80, 1, 32), (32, 3, 0, 96, 0, None), (32, 2, 1, 49, 0, 32),
           (32, 2, 1, 64, 1, 32), (32, 2, 1, 65, 0, None), (32, 2, 1, 80, 1, None), (32, 2, 1, 80, 0, 32)]


def lengths_refused():
    remark("stream lengths and marks that no message has, and their neighbours")
    for label, t, f, size, mark, wanted in LENGTHS:
        file = file_of(bytes(8), settings_bytes(label, t, f), mark, b"123", some(size, "stream"))
        read_case(file, wanted)
        if wanted == 32:
            open_case(label, some(16, "lengths"), file, ROOMY, 32)
    read_case(file_of(bytes(8), settings_bytes(10, 127, 0), 1, b"123", bytes(2064)), 32)


def room_refused():
    remark("room for opening: the message's blocks, not its bytes")
    for label, t, f, size in ((10, 0, 1, 1), (6, 2, 0, 33), (32, 1, 1, 47)):
        made = sealed(label, t, f, size)
        for room in (size, made.room - 1):
            made.opened(room=room, wanted=37)
    made.opened(room=0, wanted=37)


def checks_refused():
    remark("a check, or a block before it, changed: first, middle, last; and several at once")
    made = sealed(10, 2, 1, 100)
    for j in (1, 2, 3):
        made.opened(made.spoilt((f"check{j}", 0)), wanted=(38, j))
        made.opened(made.spoilt((f"block{2 * j}", 15)), wanted=(38, j))
    made.opened(made.spoilt(("check3", -1), ("check2", -1)), wanted=(38, 2))
    made.opened(made.spoilt(("check3", 7), ("tag", 0)), wanted=(38, 3))
    made.opened(made.spoilt(("block1", 0), ("block7", 0)), room=made.room + 5, wanted=(38, 1))
    remark("another heading, nonce or key; swapped blocks; other ciphers")
    made.opened(made.spoilt(("heading", 0)), wanted=(38, 1))
    made.opened(patched(made.file, {NONCE: "00"}), wanted=(38, 1))
    open_case(10, some(16, "another"), made.file, made.room, (38, 1))
    first, second = (made.place(f"block{i}") for i in (3, 4))
    swap = {first: made.file[second:second + 16].hex(), second: made.file[first:first + 16].hex()}
    made.opened(patched(made.file, swap), wanted=(38, 2))
    for label, t, f, size, part, j in ((6, 1, 0, 48, "check2", 2), (32, 3, 1, 100, "block4", 2),
                                       (10, 127, 1, 2103, "block127", 1)):
        made = sealed(label, t, f, size)
        made.opened(made.spoilt((part, 5)), wanted=(38, j))


def tags_refused():
    remark("last block or tag changed, or a block behind the last check")
    for label, t, f, size in ((10, 2, 1, 100), (6, 3, 0, 48), (32, 0, 1, 17)):
        made = sealed(label, t, f, size)
        for spot in ((f"block{len(pieces(made.message))}", 3), ("tag", 0), ("tag", -1)):
            made.opened(made.spoilt(spot), wanted=40)
    made = sealed(32, 3, 0, 100)
    made.opened(made.spoilt(("block5", 0)), wanted=(38, 2))
    made = sealed(32, 127, 0, 33)
    made.opened(made.spoilt(("block1", 0)), wanted=40)
    made.opened(made.spoilt(("heading", 2)), room=made.room + 5, wanted=40)
    remark("the other mark, at f = 0")
    for size in (31, 32):
        made = sealed(10, 0, 0, size)
        made.opened(patched(made.file, {MARK: f"{size % 2:02x}"}), wanted=40)
    remark("tag right, filling wrong: no message byte, no 80, something behind the 80")
    for size, last in ((1, "80" + "00" * 15), (17, "80" + "00" * 15), (17, "00" * 16), (17, "61" * 16),
                       (17, "6180" + "00" * 13 + "01"), (17, "61" + "00" * 14 + "40")):
        sealed(10, 2, 0, size, last=last).opened(wanted=40)
    remark("tag right, its bytes at f = 1 one more or fewer than the filling leaves")
    for last, tag_size in (("61616180" + "00" * 12, 4), ("616161616180" + "00" * 10, 4), ("80" + "00" * 15, 1),
                           ("61" * 16, 15)):
        sealed(6, 1, 1, 17, last=last, tag_size=tag_size).opened(wanted=40)
    remark("filling at its edges, accepted: 1 and 15 bytes, a message of 80, one that ends in 80 and zeros")
    for message in (b"a", b"a" * 15, b"\x80", b"\x80\x80\0\0", b"a\0\0", b"\0", bytes(31)):
        sealed(10, 2, 0, message).opened()


def outside(name):
    """The lines of another program that it answers, each with what came before it and the answer."""
    held = {}
    replies = iter((VECTORS / f"{name}.out").read_text().splitlines())
    for line in (VECTORS / f"{name}.in").read_text().splitlines():
        try:
            letter, mark, data = read_line(line)
        except Refusal:
            next(replies)
            continue
        if letter in "KNPH":
            held[letter] = data
        else:
            yield letter, mark, data, dict(held), next(replies)


def outside_case(mark, stream, held, reply):
    """A stream of another program in a file; that it opens so, or is refused so, is that program's word."""
    settings, key = held["P"], held["K"]
    cipher = settings[0] if settings[0] in (10, 6, 32, PAPER) else 10
    file = file_of(held["N"], settings, mark, held["H"], stream)
    wanted = None if reply[0] == "M" else int(reply[2:])
    if wanted == 38:
        wanted = 38, first_bad(cipher_of(cipher, key), file)
    open_case(cipher, key, file, ROOMY, wanted)
    if wanted is None and not lines[-1].endswith(" " + reply):
        raise AssertionError(f"not {reply}: {lines[-1]}")


def first_bad(cipher, file):
    """The check of a 38, which the other program does not name."""
    try:
        open_file(cipher, file, ROOMY)
    except Refusal as refusal:
        return refusal.check


def outside_streams(name):
    remark(f"from another program, {name}: its longest message for each settings, and a stream that it refuses for "
           "each label, number and check; the answers are its own, but for which check is bad")
    longest, refused = {}, {}
    for letter, mark, data, held, reply in outside(name):
        settings = held["P"]
        if letter == "M" and len(data) > len(longest.get(settings, (b"",))[0]):
            longest[settings] = data, held, reply
        if letter == "S" and reply[0] == "R":
            file = file_of(held["N"], settings, mark, held["H"], data)
            kind = settings[0], reply, first_bad(cipher_of(settings[0], held["K"]), file)
            refused.setdefault(kind, (mark, data, held, reply))
    for message, held, reply in longest.values():
        _, mark, stream = read_line(reply)
        outside_case(mark, stream, held, f"M {message.hex()}")
    for found in refused.values():
        outside_case(*found)


def outside_settings():
    remark("from another program, refusals: settings, each once; a label without a cipher is tried with cipher 10")
    seen = set()
    for letter, mark, data, held, reply in outside("refusals"):
        if letter == "S" and reply in ("R 11", "R 12", "R 13", "R 14", "R 15") and held["P"] not in seen:
            seen.add(held["P"])
            outside_case(mark, data, held, reply)


if __name__ == "__main__":
    remark("pay file cases: W writes, O opens, P reads in parts; made by reference/cases.py")
    for group in (accepted, writes_refused, writes_in_order, files_in_order, files_with_two, files_refused,
                  settings_refused, lengths_refused, room_refused, checks_refused, tags_refused):
        group()
    for vectors in ("aes", "speck"):
        outside_streams(vectors)
    outside_settings()
    print("\n".join(lines))
