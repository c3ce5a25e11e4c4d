#!/usr/bin/env python3
"""ELmD v2.0 with checks, the bench's lines and the pay file, apart from the library.

    elmd.py <LINES           answers the bench's lines
    elmd.py --vectors DIR    answers each DIR/*.in and compares with its .out
"""
import sys
from pathlib import Path

MOST_MESSAGE = 16_777_216
MOST_HEADING = 65_536
MOST_TEXT = 65_536
FRONT = 26
PAPER = 255


class Refusal(Exception):
    def __init__(self, number, check=None):
        super().__init__(number)
        self.number, self.check = number, check

    @property
    def layer(self):
        return "file" if self.number == 41 or 51 <= self.number <= 55 else "seal"


# Blocks are numbers of 128 bits, the first byte highest.

POLYNOMIAL = 1 << 128 | 0x87


def double(a):
    a <<= 1
    return a ^ POLYNOMIAL if a >> 128 else a


def times_power(e, a):
    """2^e times a; e is -1 or more."""
    if e == -1:
        return (a ^ POLYNOMIAL if a & 1 else a) >> 1
    for _ in range(e):
        a = double(a)
    return a


def times3(a):
    return double(a) ^ a


def times5(a):
    return double(double(a)) ^ a


def times7(a):
    return double(times3(a)) ^ a


def mix(x, w):
    return x ^ times3(w), x ^ double(w)


def unmix(y, w):
    return y ^ times3(w), y ^ w


def filled(piece):
    """A block of 1 to 16 bytes; a short one gets 80 and zeros behind it."""
    if len(piece) < 16:
        piece = piece + b"\x80" + bytes(15 - len(piece))
    return int.from_bytes(piece, "big")


def raw(block):
    return block.to_bytes(16, "big")


def pieces(data):
    return [data[i:i + 16] for i in range(0, len(data), 16)]


# Ciphers: encrypt and decrypt on blocks, a label, single or double.

def gf_times(a, b):
    product = 0
    while b:
        if b & 1:
            product ^= a
        a = a << 1 ^ (0x11B if a & 0x80 else 0)
        b >>= 1
    return product


def substitute(a):
    """FIPS 197: the inverse (the 254th power, so 0 for 0), then the affine map."""
    inverse = 1
    for _ in range(254):
        inverse = gf_times(inverse, a)
    twice = inverse << 8 | inverse
    turned = 0
    for turn in range(5):
        turned ^= twice >> (8 - turn) & 0xFF
    return turned ^ 0x63


SBOX = [substitute(a) for a in range(256)]
INV_SBOX = [SBOX.index(a) for a in range(256)]
TIMES = {k: [gf_times(k, a) for a in range(256)] for k in (1, 2, 3, 9, 11, 13, 14)}


def shift_rows(state, by):
    return [state[4 * ((i // 4 + by * (i % 4)) % 4) + i % 4] for i in range(16)]


def mix_columns(state, row):
    return [TIMES[row[0 - r & 3]][state[c]] ^ TIMES[row[1 - r & 3]][state[c + 1]]
            ^ TIMES[row[2 - r & 3]][state[c + 2]] ^ TIMES[row[3 - r & 3]][state[c + 3]]
            for c in (0, 4, 8, 12) for r in range(4)]


def add(state, key):
    return [a ^ b for a, b in zip(state, key)]


class Aes:
    """AES-128, or its form of six rounds that mix columns in the last one too."""

    def __init__(self, key, rounds):
        self.label, self.is_double = rounds, rounds == 6
        self.mixes_last = rounds == 6
        words, constant = [list(key[i:i + 4]) for i in (0, 4, 8, 12)], 1
        for i in range(4, 4 * (rounds + 1)):
            word = words[-1]
            if i % 4 == 0:
                word = [SBOX[a] for a in word[1:] + word[:1]]
                word[0] ^= constant
                constant = gf_times(2, constant)
            words.append(add(words[i - 4], word))
        self.keys = [sum(words[4 * i:4 * i + 4], []) for i in range(rounds + 1)]

    def encrypt(self, block):
        state = add(raw(block), self.keys[0])
        for i, key in enumerate(self.keys[1:], 1):
            state = shift_rows([SBOX[a] for a in state], 1)
            if i < len(self.keys) - 1 or self.mixes_last:
                state = mix_columns(state, (2, 3, 1, 1))
            state = add(state, key)
        return int.from_bytes(state, "big")

    def decrypt(self, block):
        state = list(raw(block))
        for i in range(len(self.keys) - 1, 0, -1):
            state = add(state, self.keys[i])
            if i < len(self.keys) - 1 or self.mixes_last:
                state = mix_columns(state, (14, 11, 13, 9))
            state = [INV_SBOX[a] for a in shift_rows(state, -1)]
        return int.from_bytes(add(state, self.keys[0]), "big")


WORD = (1 << 64) - 1


def rotate(a, left):
    return (a << left | a >> (64 - left)) & WORD


class Speck:
    label, is_double = 32, False

    def __init__(self, key):
        l, k = int.from_bytes(key[:8], "big"), int.from_bytes(key[8:], "big")
        self.keys = []
        for i in range(32):
            self.keys.append(k)
            l = (k + rotate(l, 56) & WORD) ^ i
            k = rotate(k, 3) ^ l

    def encrypt(self, block):
        x, y = block >> 64, block & WORD
        for k in self.keys:
            x = (rotate(x, 56) + y & WORD) ^ k
            y = rotate(y, 3) ^ x
        return x << 64 | y

    def decrypt(self, block):
        x, y = block >> 64, block & WORD
        for k in reversed(self.keys):
            y = rotate(y ^ x, 61)
            x = rotate((x ^ k) - y & WORD, 8)
        return x << 64 | y


class Paper:
    label, is_double = PAPER, False

    def __init__(self, key):
        self.key = int.from_bytes(key, "big")

    def encrypt(self, block):
        return block ^ self.key

    decrypt = encrypt


def cipher_of(label, key):
    """The cipher with this label, or 11."""
    if label in (10, 6):
        return Aes(key, label)
    if label == 32:
        return Speck(key)
    if label == PAPER:
        return Paper(key)
    raise Refusal(11)


def base_of(cipher):
    once = cipher.encrypt(0)
    return cipher.encrypt(once) if cipher.is_double else once


# Settings, lengths, heading.

def settings_bytes(label, t, f):
    return bytes([label, t >> 8, t & 255, f, 128, 0, 0, 0])


def judge_settings(settings, label=None):
    """t and f, or 11 to 15; without a label there is no 11."""
    t = settings[1] << 8 | settings[2]
    if label is not None and settings[0] != label:
        raise Refusal(11)
    if t > 127:
        raise Refusal(12)
    if settings[3] >> 1 != 0:
        raise Refusal(13)
    if settings[4] != 128:
        raise Refusal(14)
    if any(settings[5:]):
        raise Refusal(15)
    return t, settings[3] & 1


def quotient(a, t):
    return a // t if t else 0


def shape(t, f, size, mark):
    """Blocks and tag bytes of the one kind of message whose stream has this size and mark, or 32."""
    tag = (size - 1) % 16 + 1 if f else 16
    units, rest = divmod(size - tag, 16)         # blocks and checks
    l = units - (units - 1) // (t + 1) if t else units
    if rest or not 1 <= l <= MOST_MESSAGE // 16 or l + quotient(l - 1, t) != units:
        raise Refusal(32)
    if f and mark != (tag == 16):
        raise Refusal(32)
    return l, tag


def parts(t, l):
    """The stream's blocks and checks by kind and number, in order; the tag comes behind them."""
    h = quotient(l - 1, t)
    for i in range(1, l + 1):
        yield "block", i
        if t and i % t == 0 and i // t <= h:
            yield "check", i // t


def first_value(cipher, settings, nonce, heading):
    """The value that nonce, settings and heading give the first mixing."""
    base = base_of(cipher)
    value = 0
    for i, piece in enumerate([nonce + settings] + pieces(heading)):
        mask = times_power(i, base) if len(piece) == 16 else times7(times_power(i - 1, base))
        value = mix(cipher.encrypt(filled(piece) ^ times3(mask)), value)[1]
    return value


# The stream.

def block_mask(base, i, l, mark):
    if mark == 0 and i >= l:
        return times7(times_power(i - 2, base))
    return times_power(i - 1, base)


def place_mask(base, place):
    """For the stream's block, check or tag that has `place` others before it."""
    return times5(times_power(place, base))


def tag_of(cipher, base, total, value, l, mark, place):
    """The whole tag; `total` is the xor of the filled blocks."""
    y, _ = mix(cipher.encrypt(total ^ block_mask(base, l + 1, l, mark)), value)
    return raw(cipher.decrypt(y ^ 1) ^ place_mask(base, place))


def stream_of(cipher, t, value, blocks, mark, tag_size):
    """The stream of filled blocks; `value` is what the heading gave."""
    base, l = base_of(cipher), len(blocks)
    total, out = 0, []
    for kind, i in parts(t, l):
        if kind == "block":
            total ^= blocks[i - 1]
            m = blocks[i - 1] if i < l else total
            y, value = mix(cipher.encrypt(m ^ block_mask(base, i, l, mark)), value)
        else:
            y = value
        out.append(cipher.decrypt(y) ^ place_mask(base, len(out)))
    tag = tag_of(cipher, base, total, value, l, mark, len(out))
    return b"".join(map(raw, out)) + tag[:tag_size]


def seal(cipher, settings, nonce, heading, message, room):
    """Stream and mark, or 11 to 15, 21, 22, 24."""
    t, f = judge_settings(settings, cipher.label)
    if len(heading) > MOST_HEADING:
        raise Refusal(21)
    if not 1 <= len(message) <= MOST_MESSAGE:
        raise Refusal(22)
    last = len(pieces(message)[-1])
    mark = int(last == 16)
    blocks = [filled(piece) for piece in pieces(message)]
    tag_size = last if f else 16
    if room < 16 * (len(blocks) + quotient(len(blocks) - 1, t)) + tag_size:
        raise Refusal(24)
    value = first_value(cipher, settings, nonce, heading)
    return stream_of(cipher, t, value, blocks, mark, tag_size), mark


def without_filling(block):
    """The 1 to 15 bytes before 80 and zeros, or none."""
    piece = raw(block).rstrip(b"\0")
    return piece[:-1] if len(piece) > 1 and piece[-1] == 0x80 else None


def open_stream(cipher, settings, nonce, heading, stream, mark, room):
    """The message, or 11 to 15, 21, 32, 37, 38 with its check, 40."""
    t, f = judge_settings(settings, cipher.label)
    if len(heading) > MOST_HEADING:
        raise Refusal(21)
    l, tag_size = shape(t, f, len(stream), mark)
    if room < 16 * l:
        raise Refusal(37)
    base, value = base_of(cipher), first_value(cipher, settings, nonce, heading)
    total, message = 0, b""
    for place, (kind, i) in enumerate(parts(t, l)):
        y = cipher.encrypt(filled(stream[16 * place:16 * place + 16]) ^ place_mask(base, place))
        if kind == "check":
            if y != value:
                raise Refusal(38, i)
            continue
        x, value = unmix(y, value)
        m = cipher.decrypt(x) ^ block_mask(base, i, l, mark)
        block = m if i < l else m ^ total
        message += raw(block)
        total ^= block
    last = message[16 * (l - 1):]
    if mark == 0:
        last = without_filling(int.from_bytes(last, "big"))
        if last is None or f and len(last) != tag_size:
            raise Refusal(40)
    if tag_of(cipher, base, total, value, l, mark, place + 1)[:tag_size] != stream[-tag_size:]:
        raise Refusal(40)
    return message[:16 * (l - 1)] + last


# Pay files.

def file_of(nonce, settings, mark, heading, stream):
    sizes = len(heading).to_bytes(4, "big") + len(stream).to_bytes(4, "big")
    return b"\1" + sizes + nonce + settings + bytes([mark]) + heading + stream


def write_file(cipher, shed, week, settings, nonce, message, room):
    """The file, or 42, 43, 11 to 15, 41, 22, 24."""
    if not 1 <= shed <= 9999:
        raise Refusal(42)
    if not 1 <= week <= 53:
        raise Refusal(43)
    judge_settings(settings, cipher.label)
    if settings[0] == PAPER:
        raise Refusal(41)
    heading = b"%d%d" % (shed, week)
    stream, mark = seal(cipher, settings, nonce, heading, message, room - FRONT - len(heading))
    return file_of(nonce, settings, mark, heading, stream)


def split_file(data):
    """Nonce, settings, mark, heading and stream, or 51 to 55."""
    if len(data) < FRONT:
        raise Refusal(51)
    if data[0] != 1:
        raise Refusal(52)
    if data[25] > 1:
        raise Refusal(53)
    heading, stream = int.from_bytes(data[1:5], "big"), int.from_bytes(data[5:9], "big")
    if heading > MOST_HEADING:
        raise Refusal(54)
    if FRONT + heading + stream != len(data):
        raise Refusal(55)
    return data[9:17], data[17:25], data[25], data[FRONT:FRONT + heading], data[FRONT + heading:]


def read_file(data):
    """The file's parts, each its name, place and length, or 51 to 55, 12 to 15, 32."""
    _, settings, mark, heading, stream = split_file(data)
    t, f = judge_settings(settings)
    l, tag_size = shape(t, f, len(stream), mark)
    found = [("front", 0, FRONT), ("heading", FRONT, len(heading))]
    place = FRONT + len(heading)
    for kind, i in parts(t, l):
        found.append((f"{kind}{i}", place, 16))
        place += 16
    return found + [("tag", place, tag_size)]


def open_file(cipher, data, room):
    """The message, or 51 to 55, 11 to 15, 41, 32, 37, 38 with its check, 40."""
    nonce, settings, mark, heading, stream = split_file(data)
    judge_settings(settings, cipher.label)
    if settings[0] == PAPER:
        raise Refusal(41)
    return open_stream(cipher, settings, nonce, heading, stream, mark, room)


# The bench.

def hex_bytes(text):
    """Bytes of lower-case digits, of a dash none, or 92."""
    if text == "-":
        return b""
    if not text or len(text) % 2 or set(text) - set("0123456789abcdef"):
        raise Refusal(92)
    return bytes.fromhex(text)


def hex_text(data):
    return data.hex() or "-"


LENGTHS = {"K": (16, 16), "N": (8, 8), "P": (8, 8), "H": (0, MOST_HEADING), "M": (1, 4096),
           "B": (16, 16), "S": (0, 1 << 32)}
NEEDS = {"B": "KP", "M": "KPNH", "S": "KPNH"}


def read_line(line):
    """Letter, mark of an S line, bytes; or 91, 92."""
    letter = line[:1]
    if letter not in LENGTHS:
        raise Refusal(91)
    rest, mark = line[1:], 0
    if letter == "S":
        if rest[:2] not in (" 0", " 1"):
            raise Refusal(92)
        mark, rest = int(rest[1]), rest[2:]
    if rest[:1] != " ":
        raise Refusal(92)
    data = hex_bytes(rest[1:])
    least, most = LENGTHS[letter]
    if not least <= len(data) <= most:
        raise Refusal(92)
    return letter, mark, data


def answer(line, held):
    """A line's answer, none for K, N, P and H, which go into `held`."""
    letter, mark, data = read_line(line)
    if letter in "KNPH":
        held[letter] = data
        return None
    if any(need not in held for need in NEEDS[letter]):
        raise Refusal(93)
    cipher = cipher_of(held["P"][0], held["K"])
    if letter == "B":
        return "B " + raw(cipher.encrypt(filled(data))).hex()
    call = cipher, held["P"], held["N"], held["H"], data
    if letter == "M":
        stream, mark = seal(*call, room=1 << 32)
        return f"S {mark} {stream.hex()}"
    return "M " + open_stream(*call, mark, room=1 << 32).hex()


def answers(text):
    held, out = {}, []
    for line in text.removesuffix("\n").split("\n") if text else []:
        try:
            said = answer(line, held)
        except Refusal as refusal:
            said = f"R {refusal.number}"
        if said is not None:
            out.append(said + "\n")
    return "".join(out)


def hold_to_vectors(folder):
    count = 0
    for questions in sorted(Path(folder).glob("*.in")):
        got = answers(questions.read_bytes()[:MOST_TEXT].decode("latin-1"))
        wanted = questions.with_suffix(".out").read_bytes().decode("latin-1")
        if got != wanted:
            pairs = zip((got + "\n.").split("\n"), (wanted + "\n.").split("\n"))
            first = next(i for i, (a, b) in enumerate(pairs, 1) if a != b)
            sys.exit(f"{questions.stem}: answer {first} differs")
        count += got.count("\n")
        print(f"{questions.stem}: {got.count(chr(10))} answers agree")
    print(f"{count} in all")
    return count > 0


if __name__ == "__main__":
    if sys.argv[1:2] == ["--vectors"] and len(sys.argv) == 3:
        sys.exit(not hold_to_vectors(sys.argv[2]))
    elif len(sys.argv) == 1:
        sys.stdout.write(answers(sys.stdin.buffer.read(MOST_TEXT).decode("latin-1")))
    else:
        sys.exit(__doc__)
