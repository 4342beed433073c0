"""Changes of files and of words, drawn from a generator of random numbers."""

EDGES = [0, 1, 2, 3, 4, 5, 9, 15, 16, 17, 31, 32, 33, 63, 64, 65, 127, 128, 129, 254, 255, 256, 511, 512, 1024, 1025,
         2047, 2048, 4095, 4096, 8192, 32767, 32768, 65535, 65536, 65537, 2 ** 24, 2 ** 24 + 1, 2 ** 31 - 1, 2 ** 31,
         2 ** 32 - 1, 2 ** 32, 2 ** 63 - 1, 2 ** 63, 2 ** 64 - 1, 2 ** 64, 10 ** 19, 10 ** 20, 10 ** 40]
WORDS = [b"", b" ", b"-1", b"+1", b"00", b"01", b"1.0", b"0x1", b"a", b"A", b"_", b"int", b"bit", b"in", b"out", b"bits",
         b"\xff", b"\x00", b"\r", b"\t", "ä".encode(), "😀".encode(), b"a" * 32, b"a" * 33, b"9" * 19, b"9" * 20, b"9" * 400]
FIRST_WORDS = (b"bits in inw ins inbit const constw add sub mul div rem neg and or xor not shl shr shlv shrv eq ne lt le "
               b"gt ge select min max cast casts out int bit").split()


def is_text(data):
    """Whether a file looks like a text."""
    return data[:2] != b"RX"


def place_in(rng, data):
    """A place of a file; half of the time among its first 100 bytes."""
    most = len(data) if rng.random() < 0.5 else min(len(data), 100)
    return rng.randrange(most + 1)


def set_byte(rng, data):
    at = place_in(rng, data)
    value = rng.choice([rng.randrange(256), rng.choice(EDGES) % 256])
    return data[:at] + bytes([value]) + data[at + 1:]


def flip_bit(rng, data):
    at = place_in(rng, data)
    return data[:at] + bytes(byte ^ 1 << rng.randrange(8) for byte in data[at:at + 1]) + data[at + 1:]


def set_number(rng, data):
    """A number of 2, 4 or 8 bytes."""
    at, size = place_in(rng, data), rng.choice((2, 4, 8))
    return data[:at] + (rng.choice(EDGES) % 256 ** size).to_bytes(size, "little") + data[at + size:]


def cut(rng, data):
    return data[:place_in(rng, data)]


def lengthen(rng, data):
    return data + bytes(rng.randrange(256) for _ in range(rng.choice((1, 2, 8, 100))))


def leave_out(rng, data):
    at = place_in(rng, data)
    return data[:at] + data[at + rng.choice((1, 1, 2, 4, 30)):]


def repeat(rng, data):
    at = place_in(rng, data)
    return data[:at] + data[at:at + rng.choice((1, 2, 6, 30))] * rng.choice((2, 3)) + data[at + 1:]


def set_magic(rng, data):
    magics = (b"RXC1", b"RXS1", b"RXS2", b"RXE1", b"RXE2", b"RXN1", b"RXM1", b"RXE3", b"rxe1", b"\0\0\0\0")
    return rng.choice(magics) + data[4:]


def set_field(rng, data):
    """One of the ten fields of a set in a binary file."""
    at = 4 + 4 * rng.randrange(10)
    return data[:at] + (rng.choice(EDGES) % 2 ** 32).to_bytes(4, "little") + data[at + 4:]


def split_words(data):
    return [line.split(b" ") for line in data.split(b"\n")]


def join_words(lines):
    return b"\n".join(b" ".join(line) for line in lines)


def change_word(rng, data):
    lines = split_words(data)
    line = rng.choice(lines)
    at = rng.randrange(len(line))
    other = rng.choice(rng.choice(lines))
    number = rng.choice((rng.choice(EDGES), rng.randrange(70)))
    line[at] = rng.choice((other, str(number).encode(), rng.choice(WORDS)))
    return join_words(lines)


def change_alike(rng, data):
    """A word in place of one that is like it: a numeral, a first word or a name."""
    lines = split_words(data)
    line = rng.choice(lines)
    at = rng.randrange(len(line))
    if line[at].isdigit():
        near = max(0, int(line[at][:80]) + rng.choice((-1, 1)))
        line[at] = str(rng.choice((rng.choice(EDGES), rng.randrange(10), near))).encode()
    elif at == 0:
        line[at] = rng.choice(FIRST_WORDS if rng.random() < 0.7 else [other[0] for other in lines])
    else:
        line[at] = rng.choice([word for other in lines for word in other[1:] if not word.isdigit()] or [b"z"])
    return join_words(lines)


def change_words(rng, data):
    """A word more or fewer in a line."""
    lines = split_words(data)
    line = rng.choice(lines)
    at = rng.randrange(len(line))
    if rng.random() < 0.5:
        del line[at]
    else:
        line.insert(at, rng.choice(rng.choice(lines)))
    return join_words(lines)


def change_lines(rng, data):
    """A line more or fewer, or two lines in the other order."""
    lines = data.split(b"\n")
    at, other = rng.randrange(len(lines)), rng.randrange(len(lines))
    kind = rng.randrange(3)
    if kind == 0:
        del lines[at]
    elif kind == 1:
        lines.insert(at, lines[other])
    else:
        lines[at], lines[other] = lines[other], lines[at]
    return b"\n".join(lines)


def many_lines(rng, data):
    """A line many times over, numbered or not."""
    lines = data.split(b"\n")
    at = rng.randrange(len(lines))
    words = lines[at].split(b" ")
    count = rng.choice((10, 63, 64, 65, 70, 4100))
    if len(words) > 1 and rng.random() < 0.8:
        new = [b" ".join([words[0], words[1] + str(n).encode(), *words[2:]]) for n in range(count)]
    else:
        new = [lines[at]] * count
    return b"\n".join(lines[:at] + new + lines[at:])


BYTES = (set_byte, set_byte, set_byte, flip_bit, flip_bit, set_number, cut, lengthen, leave_out, repeat)
BINARY = BYTES + (set_magic, set_field, set_field)
TEXT = BYTES + (change_word,) * 4 + (change_alike,) * 14 + (change_words,) * 3 + (change_lines,) * 3 + (many_lines,)


def changed(rng, data):
    """A file with one change, or with a few."""
    for _ in range(rng.choice((1, 1, 1, 1, 1, 2, 3))):
        data = rng.choice(TEXT if is_text(data) else BINARY)(rng, data)
    return data


def changed_words(rng, words):
    """Words of the command line with one change. No word has a byte 0, which no word of a command line can have."""
    words = list(words)
    kind = rng.randrange(6)
    at = rng.randrange(len(words)) if words else 0
    if kind == 0 and words:
        del words[at]
    elif kind == 1:
        words.insert(at, rng.choice(WORDS + words))
    elif kind == 2 and words:
        words[at] = str(rng.choice(EDGES)).encode()
    elif kind == 3 and words:
        words[at] = rng.choice(WORDS)
    elif kind == 4 and words:
        words[at] = words[at][:-1] if rng.random() < 0.5 else words[at] + rng.choice((b"0", b"g", b" ", b"\xc3"))
    elif words:
        other = rng.randrange(len(words))
        words[at], words[other] = words[other], words[at]
    return [word.replace(b"\0", b"") for word in words]
