"""What the program has to answer to some words, by docs/FORMATS.md and docs/LANGUAGE.md: the status, what it prints,
and what it writes. Where that hangs on a secret key, what is known of it.

`answer(words, read)` takes the words as bytes and a way to read a file, which answers None for one that cannot be read.
"""

import re
import struct

import readers
from readers import FIELDS, MOST, Fault

SETS = {
    "rx-2-2": (2, 1, 512, 24, 12, 2, 4, 6, 17, 20),
    "rx-test": (2, 1, 256, 8, 12, 2, 4, 6, 17, 20),
    "rx-3-3": (3, 1, 2048, 24, 12, 3, 5, 6, 17, 20),
    "rx-k2": (2, 2, 256, 8, 12, 2, 4, 6, 17, 20),
}
FILE_LIMIT = 2 ** 29


class Answer:
    """Each status that may come, what is printed with it, and the names of the files that are written with status 0.

    What is printed is text, or a test of it. `check` tests what was written with status 0: it is given a way to read
    files, and what was printed."""

    def __init__(self, status, text="", writes=(), check=None):
        self.texts = {status: text}
        self.writes = list(writes)
        self.check = check

    def also(self, status, text):
        """The same, or another status."""
        self.texts[status] = text
        return self


class Usage(Exception):
    """Words that are no command."""


class Unread(Exception):
    """A file that cannot be read."""


def seed(word):
    """The bytes of a seed."""
    if not re.fullmatch("[0-9a-fA-F]{64}", word):
        raise Usage
    return bytes.fromhex(word)


def number(word):
    """The number of a word of the command line."""
    if not re.fullmatch("0|[1-9][0-9]*", word) or int(word) >= 2 ** 64:
        raise Usage
    return int(word)


def take(words, count, more=False):
    """So many words, and where wanted those after them."""
    if len(words) < count or len(words) > count and not more:
        raise Usage
    return words


class Files:
    """The files of a command, which are all read before any is looked at."""

    def __init__(self, read, names):
        self.files = []
        for name in names:
            data = read(name)
            if data is None:
                raise Unread
            if len(data) > FILE_LIMIT:
                raise Fault(10, f"limit file {name} {FILE_LIMIT + 1}")
            self.files.append((name, data))

    def each(self, reader, place, *more):
        """What a reader makes of a file, with its name in a fault."""
        name, data = self.files[place]
        return named(name, reader, data, *more)


def named(name, call, *arguments):
    """A call, with the name of a file in its fault."""
    try:
        return call(*arguments)
    except Fault as fault:
        raise Fault(fault.status, fault.line.replace("{}", name)) from None


def spelled(p):
    """The ten fields of a binary file."""
    return b"".join(struct.pack("<I", p[field]) for field in FIELDS)


def source(word, read):
    """The set of a name or of a parameter text, accepted."""
    if word in SETS:
        p = dict(zip(FIELDS, SETS[word]))
    else:
        p = Files(read, [word]).each(readers.read_params, 0)
    return p, readers.check(p)


# The commands.

def check(words, read):
    (word,) = take(words, 1)
    _, found = source(word, read)
    return Answer(0, "".join(f"{name} {value}\n" for name, value in found.items()) + "accepted\n")


def client(words, read):
    word, client_seed, out = take(words, 3)
    client_seed = seed(client_seed)
    p, _ = source(word, read)
    return Answer(0, "", [out], lambda after, _: after(out) == b"RXC1" + spelled(p) + client_seed)


def keygen(words, read):
    client_name, mask_seed, out = take(words, 3)
    mask_seed = seed(mask_seed)
    p = Files(read, [client_name]).each(readers.read_client, 0)
    return Answer(0, "", [out], lambda after, _: after(out)[:76] == b"RXS2" + spelled(p) + mask_seed
                  and readers.read_server(after(out)) == p)


def items_of(m, values):
    """The items that value lines are encrypted to, by name."""
    def tags(kind, bits):
        return [(2 ** m - 1, 1)] * (bits // m) if kind == "int" else [(1, 1)]

    return {name: (int(kind == "bit"), bits, tags(kind, bits)) for name, (kind, bits, _) in values.items()}


def encrypt(words, read):
    client_name, mask_seed, noise_seed, values_name, out = take(words, 5)
    mask_seed, _ = seed(mask_seed), seed(noise_seed)
    files = Files(read, [client_name, values_name])
    p, values = files.each(readers.read_client, 0), files.each(readers.read_values, 1)
    readers.check_widths(p["message_bits"], values)
    items = items_of(p["message_bits"], values)
    return Answer(0, "", [out], lambda after, _: after(out)[:76] == b"RXE2" + spelled(p) + mask_seed
                  and list(readers.read_cipher(after(out))[1].items()) == list(items.items()))


def jobs_and_depth(text):
    """The numbers of what `compile` and `fold` print."""
    found = re.fullmatch(r"jobs (0|[1-9]\d*) depth (0|[1-9]\d*)\n", text)
    return (int(found[1]), int(found[2])) if found else None


def depth_of(net):
    """The most jobs one after the other of a net."""
    m, inputs, jobs, _ = net
    depths = [0] * sum(count for _, _, count, _, _ in inputs.values())
    for terms, _, _, _ in jobs:
        depths.append(1 + max((depths[cell] for cell, _ in terms), default=0))
    return max(depths, default=0)


def is_told(text, data, most):
    """Whether a line tells the net of a file, which has no more jobs than these."""
    net = readers.read_net(data)
    return jobs_and_depth(text) == (len(net[2]), depth_of(net)) and len(net[2]) <= most


def compile_(words, read):
    circuit_name, out = take(words, 2)
    circuit = Files(read, [circuit_name]).each(readers.read_circuit, 0)
    bound = readers.job_bound(circuit)
    readers.check_jobs(bound)
    kinds = [kind[0] == "Bit" for kind in circuit.outputs.values()]

    def fits(after, text):
        m, inputs, _, outputs = readers.read_net(after(out))
        return is_told(text, after(out), bound) and m == circuit.m and list(inputs) == list(circuit.inputs) \
            and list(outputs) == list(circuit.outputs) and [kind == 1 for kind, _ in outputs.values()] == kinds

    return Answer(0, lambda text: jobs_and_depth(text) is not None, [out], fits)


def fold(words, read):
    net_name, out = take(words, 2)
    net = Files(read, [net_name]).each(readers.read_net, 0)

    def fits(after, text):
        return is_told(text, after(out), len(net[2])) and readers.read_net(after(out))[1] == net[1]

    return Answer(0, lambda text: jobs_and_depth(text) is not None, [out], fits)


def run(words, read):
    server, net_name, workers, out, *inputs = take(words, 4, True)
    if len(inputs) > MOST:
        raise Usage
    workers = number(workers)
    files = Files(read, [server, net_name, *inputs])
    p, net = files.each(readers.read_server, 0), files.each(readers.read_net, 1)
    ciphers = [files.each(readers.read_cipher, place) for place in range(2, 2 + len(inputs))]
    named(net_name, readers.check_space, p, net[0])
    for name, (other, _) in zip(inputs, ciphers):
        named(name, readers.check_same, p, other)
    readers.check_items(net[1], [items for _, items in ciphers])
    readers.check_room(p, workers, len(net[2]))

    def fits(after, _):
        given, items = readers.read_cipher(after(out), False)
        kinds = [(kind, len(cells)) for kind, cells in net[3].values()]
        return given == p and list(items) == list(net[3]) and kinds == [(row[0], len(row[2])) for row in items.values()]

    return Answer(0, f"jobs {len(net[2])}\n", [out], fits)


def are_lines(items):
    """Whether a text has a line of a name and a number for each item."""
    def test(text):
        lines = [line.split(" ") for line in text.split("\n")]
        return lines[-1] == [""] and [line[0].encode() for line in lines[:-1]] == list(items) \
            and all(len(line) == 2 and re.fullmatch(r"0|[1-9]\d*", line[1]) and int(line[1]) < 2 ** bits
                    for line, (_, bits, _) in zip(lines, items.values()))
    return test


def is_damage(items):
    """Whether a text reports a block of an item above its degree."""
    def test(text):
        found = re.fullmatch(r"damaged (\w+) (\d+) (\d+) (\d+)\n", text)
        if found is None or found[1].encode() not in items:
            return False
        tags = items[found[1].encode()][2]
        block, decoded, degree = map(int, found.groups()[1:])
        return block < len(tags) and degree == tags[block][0] and decoded > degree
    return test


def decrypt(words, read):
    client_name, name = take(words, 2)
    files = Files(read, [client_name, name])
    p, (other, items) = files.each(readers.read_client, 0), files.each(readers.read_cipher, 1)
    named(name, readers.check_same, p, other)
    return Answer(0, are_lines(items)).also(9, is_damage(items))


def trip(words, read):
    client_name, *seeds, circuit_name, values_name, workers, prefix = take(words, 8)
    seeds = [seed(word) for word in seeds]
    workers = number(workers)
    files = Files(read, [client_name, circuit_name, values_name])
    p, circuit = files.each(readers.read_client, 0), files.each(readers.read_circuit, 1)
    values = files.each(readers.read_values, 2)
    named(circuit_name, readers.check_space, p, circuit.m)
    readers.check_inputs(circuit, values)
    readers.check_widths(p["message_bits"], values)
    readers.check_room(p, workers, readers.job_bound(circuit))
    return Answer(0, printed(circuit, values), [prefix + end for end in (".server", ".net", ".inputs", ".outputs")])


def plain(words, read):
    files = Files(read, take(words, 2))
    circuit, values = files.each(readers.read_circuit, 0), files.each(readers.read_values, 1)
    readers.check_inputs(circuit, values)
    return Answer(0, printed(circuit, values))


def make(words, _):
    start, circuit, values = take(words, 3)
    texts = sample(number(start))
    if circuit == values:
        return Answer(0, "", [values], lambda after, _: after(values) == texts[1])
    return Answer(0, "", [circuit, values], lambda after, _: (after(circuit), after(values)) == texts)


def by_magic(data, magics):
    """The reader of a file by its magic."""
    if len(data) < 4:
        raise readers.malformed(f"short 4 {len(data)}")
    if data[:4] not in magics:
        raise readers.malformed("magic")
    return magics[data[:4]](data)


def migrate(words, read):
    mask_seed, name, out = take(words, 3)
    mask_seed = seed(mask_seed)
    files = Files(read, [name])
    files.each(by_magic, 0, {b"RXS1": readers.read_server, b"RXE1": readers.read_cipher})
    data = files.files[0][1]

    def fits(after, _):
        return after(out)[:76] == data[:3] + b"2" + data[4:44] + mask_seed and read_any(after(out)) == read_any(data)

    return Answer(0, "", [out], fits).also(12, lambda text: re.fullmatch(f"seed {re.escape(name)} [1-9][0-9]*\n", text))


def read_any(data):
    """What a server or a ciphertext file tells without its words."""
    return readers.read_cipher(data) if data[:3] == b"RXE" else readers.read_server(data)


def expand(words, read):
    name, out = take(words, 2)
    files = Files(read, [name])
    files.each(by_magic, 0, {b"RXS2": readers.read_server, b"RXE2": readers.read_cipher})
    data = files.files[0][1]
    return Answer(0, "", [out], lambda after, _: after(out)[:44] == data[:3] + b"1" + data[4:44]
                  and read_any(after(out)) == read_any(data))


COMMANDS = {"check": check, "client": client, "keygen": keygen, "encrypt": encrypt, "compile": compile_, "fold": fold,
            "run": run, "decrypt": decrypt, "trip": trip, "plain": plain, "make": make, "migrate": migrate,
            "expand": expand}


def answer(words, read):
    """What the program has to answer to some words."""
    try:
        words = [word.decode() for word in words]
        if not words or words[0] not in COMMANDS:
            raise Usage
        return COMMANDS[words[0]](words[1:], read)
    except (Usage, UnicodeDecodeError):
        return Answer(2, "usage\n")
    except Unread:
        return Answer(3)
    except Fault as fault:
        return Answer(fault.status, fault.line + "\n")


# The values of a circuit, by the table of docs/LANGUAGE.md.

def meant(kind, value):
    """The number that a value of a kind stands for."""
    return value - 2 ** kind[1] if kind[0] == "Sint" and value >> kind[1] - 1 else value


def value_of(word, kind, numerals, kinds, a):
    """The value of a line, of arguments with these kinds and values."""
    z = [meant(*pair) for pair in zip(kinds, a)]
    w = kind[1]
    if word in ("const", "constw"):
        return numerals[-1]
    if word in ("shl", "shr"):
        return z[0] << numerals[0] if word == "shl" else z[0] >> numerals[0]
    if word in ("shlv", "shrv"):
        return z[0] << min(z[1], 300) if word == "shlv" else z[0] >> min(z[1], 300)
    if word == "select":
        return z[1] if z[0] else z[2]
    if word in ("div", "rem"):
        return (z[0] // z[1] if z[1] else 2 ** w - 1) if word == "div" else (z[0] % z[1] if z[1] else z[0])
    if word == "not":
        return 2 ** w - 1 - a[0]
    if word in ("neg", "cast", "casts"):
        return -z[0] if word == "neg" else z[0]
    return {"add": lambda x, y: x + y, "sub": lambda x, y: x - y, "mul": lambda x, y: x * y, "and": lambda x, y: x & y,
            "or": lambda x, y: x | y, "xor": lambda x, y: x ^ y, "min": min, "max": max, "eq": lambda x, y: x == y,
            "ne": lambda x, y: x != y, "lt": lambda x, y: x < y, "le": lambda x, y: x <= y, "gt": lambda x, y: x > y,
            "ge": lambda x, y: x >= y}[word](*z)


def printed(circuit, values):
    """The lines of the outputs of a circuit."""
    known, lines = {}, []
    for word, name, kind, numerals, args in circuit.lines:
        if word == "out":
            lines.append(f"{name.decode()} {known[name]}\n")
        elif word in ("in", "inw", "ins", "inbit"):
            known[name] = values[name][2]
        else:
            kinds = [circuit.kinds[arg] for arg in args]
            known[name] = value_of(word, kind, numerals, kinds, [known[arg] for arg in args]) % 2 ** kind[1]
    return "".join(lines)


def sample(x):
    """The two texts of `make`, by the recurrence of docs/LANGUAGE.md."""
    def draw(q):
        nonlocal x
        x = (6364136223846793005 * x + 1442695040888963407) % 2 ** 64
        return (x >> 33) % q

    values = "".join(f"int i{i} 16 {draw(65536)}\n" for i in range(8))
    names = [f"i{i}" for i in range(8)]
    lines = ["bits 2 16"] + [f"in {name}" for name in names]
    for t in range(16):
        word = ("add", "sub", "mul", "and", "or", "xor", "min", "max")[draw(8)]
        lines.append(f"{word} v{t} {names[draw(8 + t)]} {names[draw(8 + t)]}")
        names.append(f"v{t}")
    lines += [f"out v{t}" for t in range(8, 16)]
    return "".join(line + "\n" for line in lines).encode(), values.encode()
