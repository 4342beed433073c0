"""Reads each kind of file by docs/FORMATS.md, docs/LANGUAGE.md and docs/NOISE.md, and tells its first fault.

Written from those documents alone, in plain Python: it shares nothing with the program, and `scripts/fuzz` compares
the two. A reader answers what the file spells, or raises `Fault`.
"""

import re

FIELDS = ["message_bits", "glwe_dim", "poly_size", "lwe_dim", "pbs_base_log", "pbs_level", "ks_base_log", "ks_level",
          "glwe_bound", "lwe_bound"]
NAME = re.compile(rb"[a-z][a-z0-9_]{0,31}")
NUMERAL = re.compile(rb"0|[1-9][0-9]*")
MOST = 64
MOST_JOBS = 65536
MOST_LINES = 4096


class Fault(Exception):
    """A refusal: the status, and its line, in which `{}` stands for the name of the file."""

    def __init__(self, status, line):
        super().__init__(line)
        self.status = status
        self.line = line


def malformed(rest):
    """The fault of a file that has not its format."""
    return Fault(5, "malformed {} " + rest)


# Parameter sets.

def key_words(p):
    """The words of a server key."""
    k, n = p["glwe_dim"], p["poly_size"]
    return p["lwe_dim"] * (k + 1) ** 2 * p["pbs_level"] * n + k * n * p["ks_level"] * (p["lwe_dim"] + 1)


def body_words(p):
    """The words of a server key that no mask seed draws."""
    k, n = p["glwe_dim"], p["poly_size"]
    return p["lwe_dim"] * (k + 1) * p["pbs_level"] * n + k * n * p["ks_level"]


def block_words(p):
    """The words of a block."""
    return p["glwe_dim"] * p["poly_size"] + 1


def sums(p):
    """The sums of docs/NOISE.md, by name."""
    m, k, n = p["message_bits"], p["glwe_dim"], p["poly_size"]
    step = 2 ** (63 - p["pbs_base_log"] * p["pbs_level"]) * (1 + k * n)
    step += (k + 1) * p["pbs_level"] * n * 2 ** (p["pbs_base_log"] - 1 + p["glwe_bound"])
    boot = p["lwe_dim"] * step
    switch = k * n * 2 ** (63 - p["ks_base_log"] * p["ks_level"])
    switch += k * n * p["ks_level"] * 2 ** (p["ks_base_log"] - 1 + p["lwe_bound"])
    rounding = (p["lwe_dim"] + 1) * (2 ** 62 // n)
    left = (2 ** m + 1) * max(boot, 2 ** p["glwe_bound"]) + switch + rounding
    return {"step": step, "boot": boot, "switch": switch, "round": rounding, "left": left, "right": 2 ** (62 - 2 * m)}


def limits(p):
    """The ten fields in their order, and whether each is within its limit."""
    def within(low, value, high):
        return low <= value <= high

    def digits(base, level):
        return within(1, level, 30) and base * level <= 60

    return [within(2, p["message_bits"], 3), within(1, p["glwe_dim"], 4),
            p["poly_size"] in (64, 128, 256, 512, 1024, 2048, 4096), within(1, p["lwe_dim"], 1024),
            within(1, p["pbs_base_log"], 24), digits(p["pbs_base_log"], p["pbs_level"]),
            within(1, p["ks_base_log"], 24), digits(p["ks_base_log"], p["ks_level"]),
            within(0, p["glwe_bound"], 40), within(0, p["lwe_bound"], 40)]


def check(p):
    """The sums of an accepted set."""
    for field, inside in zip(FIELDS, limits(p)):
        if not inside:
            raise Fault(6, f"refused limit {field} {p[field]}")
    if key_words(p) > 2 ** 24:
        raise Fault(6, f"refused limit key_words {key_words(p)}")
    if p["poly_size"] < 2 * 4 ** p["message_bits"]:
        raise Fault(6, f"refused box {p['poly_size']} {4 ** p['message_bits']}")
    found = sums(p)
    if found["left"] >= found["right"]:
        raise Fault(6, f"refused noise {found['left']} {found['right']}")
    return found


# Binary files.

class Fields:
    """A file, and the place of its next field."""

    def __init__(self, data):
        self.data, self.at = data, 0

    def bytes(self, count):
        need = self.at + count
        if need > len(self.data):
            raise malformed(f"short {need} {len(self.data)}")
        self.at = need
        return self.data[need - count:need]

    def number(self, size, low=0, high=None, signed=False):
        at = self.at
        value = int.from_bytes(self.bytes(size), "little", signed=signed)
        if high is not None and not low <= value <= high:
            raise malformed(f"field {at}")
        return value

    def magic(self, *names):
        found = self.bytes(4)
        if found not in names:
            raise malformed("magic")
        return found

    def params(self):
        p = {field: self.number(4) for field in FIELDS}
        check(p)
        return p

    def name(self, taken):
        size = self.number(1, 1, 32)
        at = self.at
        text = self.bytes(size)
        if not NAME.fullmatch(text) or text in taken:
            raise malformed(f"field {at}")
        return text

    def form(self, m):
        kind = self.number(1, 0, 1)
        at = self.at
        bits = self.number(1)
        if not (bits == 1 if kind == 1 else 0 < bits <= 64 and bits % m == 0):
            raise malformed(f"field {at}")
        return kind, bits, 1 if kind == 1 else bits // m

    def tags(self, m, kind):
        return self.number(1, 0, 1 if kind == 1 else 2 ** m - 1), self.number(1, 1, 2 ** m + 1)

    def end(self):
        if self.at < len(self.data):
            raise malformed(f"long {len(self.data) - self.at}")


def read_client(data):
    """The set of a client file."""
    fields = Fields(data)
    fields.magic(b"RXC1")
    p = fields.params()
    fields.bytes(32)
    fields.end()
    return p


def read_server(data, seeded=None):
    """The set of a server file; of either version, or of one alone."""
    fields = Fields(data)
    if seeded is None:
        seeded = data[:4] == b"RXS2"
    fields.magic(b"RXS2" if seeded else b"RXS1")
    p = fields.params()
    if seeded:
        fields.bytes(32)
    fields.bytes(8 * (body_words(p) if seeded else key_words(p)))
    fields.end()
    return p


def read_cipher(data, seeded=None):
    """The set of a ciphertext file, and its items; of either version, or of one alone."""
    fields = Fields(data)
    if seeded is None:
        seeded = data[:4] == b"RXE2"
    fields.magic(b"RXE2" if seeded else b"RXE1")
    p = fields.params()
    if seeded:
        fields.bytes(32)
    items = {}
    for _ in range(fields.number(4, 0, MOST)):
        name = fields.name(items)
        kind, bits, count = fields.form(p["message_bits"])
        tags = []
        for _ in range(count):
            tags.append(fields.tags(p["message_bits"], kind))
            fields.bytes(8 * (1 if seeded else block_words(p)))
        items[name] = (kind, bits, tags)
    fields.end()
    return p, items


def read_job(fields, m):
    """The terms, the constant, the table and the degree of a job."""
    terms = [(fields.number(4), fields.number(1, signed=True)) for _ in range(fields.number(1, 0, 16))]
    return terms, fields.number(2, signed=True), fields.bytes(4 ** m), fields.number(1)


def read_net(data):
    """A net: its message bits, its inputs, its jobs, and its outputs."""
    fields = Fields(data)
    fields.magic(b"RXN1")
    m = fields.number(1, 2, 3)
    inputs, outputs = {}, {}
    for _ in range(fields.number(2, 0, MOST)):
        name = fields.name(inputs)
        kind, bits, count = fields.form(m)
        inputs[name] = (kind, bits, count, *fields.tags(m, kind))
    jobs = [read_job(fields, m) for _ in range(fields.number(4, 0, MOST_JOBS))]
    for _ in range(fields.number(2, 0, MOST)):
        name = fields.name(outputs)
        kind, _, count = fields.form(m)
        outputs[name] = (kind, [fields.number(4) for _ in range(count)])
    fields.end()
    check_net(m, inputs, jobs, outputs)
    return m, inputs, jobs, outputs


def check_net(m, inputs, jobs, outputs):
    """Whether a net is legal."""
    tags = [(degree, noise) for _, _, count, degree, noise in inputs.values() for _ in range(count)]
    for number, (terms, constant, table, declared) in enumerate(jobs):
        tags.append(check_job(m, tags, number, terms, constant, table, declared))
    for index, (kind, cells) in enumerate(outputs.values()):
        most = 1 if kind == 1 else 2 ** m - 1
        if any(cell >= len(tags) or tags[cell][0] > most for cell in cells):
            raise malformed(f"net output {index}")


def check_job(m, tags, number, terms, constant, table, declared):
    """The tags of a lawful job's cell."""
    if any(cell >= len(tags) for cell, _ in terms):
        raise malformed(f"net forward {number}")
    parts = [weight * tags[cell][0] for cell, weight in terms]
    low = constant + sum(part for part in parts if part < 0)
    high = constant + sum(part for part in parts if part > 0)
    noise = sum(abs(weight) * tags[cell][1] for cell, weight in terms)
    if low < 0 or high >= 4 ** m:
        raise malformed(f"net range {number} {low} {high}")
    if noise > 2 ** m + 1:
        raise malformed(f"net noise {number} {noise}")
    if any(entry >= 4 ** m for entry in table):
        raise malformed(f"net table {number}")
    reached = max(table[low:high + 1])
    if declared != reached:
        raise malformed(f"net degree {number} {declared} {reached}")
    return declared, 1


# Texts.

def lines_of(data):
    """The lines of a text, each as its words, and None for a last line without its line feed."""
    if data == b"":
        return []
    *whole, rest = data.split(b"\n")
    return [line.split(b" ") for line in whole] + ([None] if rest else [])


def is_numeral(word):
    """Whether a word is a numeral of any size."""
    return NUMERAL.fullmatch(word) is not None


def line_fault(number, cause):
    """The fault of a line."""
    return malformed(f"line {number} {cause}")


def read_params(data):
    """The set that a parameter text spells."""
    lines, p = lines_of(data), {}
    for number, field in enumerate(FIELDS, 1):
        words = lines[number - 1] if number <= len(lines) else None
        if words is None or len(words) != 2 or words[0] != field.encode() or not is_numeral(words[1]):
            raise line_fault(number, "form")
        if int(words[1]) >= 2 ** 32:
            raise line_fault(number, "number")
        p[field] = int(words[1])
    if len(lines) > 10:
        raise line_fault(11, "form")
    return p


def read_values(data):
    """The lines of a value file: kind, bits and value by name."""
    values = {}
    for number, words in enumerate(lines_of(data), 1):
        if words is None or len(words) != 4 or words[0] not in (b"int", b"bit") or not NAME.fullmatch(words[1]) \
                or not is_numeral(words[2]) or not is_numeral(words[3]):
            raise line_fault(number, "form")
        bits, value = int(words[2]), int(words[3])
        if not (1 <= bits <= 64 if words[0] == b"int" else bits == 1) or value >= 2 ** bits:
            raise line_fault(number, "number")
        if words[1] in values:
            raise line_fault(number, "again")
        if number > MOST:
            raise line_fault(number, "limit")
        values[words[1]] = (words[0].decode(), bits, value)
    return values


# Circuits. A row has: whether a width is stated, the arguments, the end of the range of a numeral, and the kinds.

def is_number(a):
    return a[0] in ("Int", "Sint")


def two_numbers(a, b):
    return a == b and is_number(a)


ROWS = {
    "in": (False, 0, None, lambda w: ("Int", w)), "inw": (True, 0, None, lambda w: ("Int", w)),
    "ins": (True, 0, None, lambda w: ("Sint", w)), "inbit": (False, 0, None, lambda w: ("Bit", 1)),
    "const": (False, 0, "value", lambda w: ("Int", w)), "constw": (True, 0, "value", lambda w: ("Int", w)),
    "cast": (True, 1, None, lambda w, a: ("Int", w)), "casts": (True, 1, None, lambda w, a: ("Sint", w)),
    "neg": (False, 1, None, lambda w, a: a if is_number(a) else None), "not": (False, 1, None, lambda w, a: a),
    "select": (False, 3, None, lambda w, c, a, b: a if c[0] == "Bit" and two_numbers(a, b) else None),
    "out": (False, 0, None, lambda w, a: a),
}
for _word in ("add", "sub", "mul", "min", "max"):
    ROWS[_word] = (False, 2, None, lambda w, a, b: a if two_numbers(a, b) else None)
for _word in ("div", "rem"):
    ROWS[_word] = (False, 2, None, lambda w, a, b: a if a == b and a[0] == "Int" else None)
for _word in ("and", "or", "xor"):
    ROWS[_word] = (False, 2, None, lambda w, a, b: a if a == b else None)
for _word in ("shl", "shr"):
    ROWS[_word] = (False, 1, "amount", lambda w, a: a if is_number(a) else None)
for _word in ("shlv", "shrv"):
    ROWS[_word] = (False, 2, None, lambda w, a, b: a if is_number(a) and b == ("Int", a[1]) else None)
for _word in ("eq", "ne", "lt", "le", "gt", "ge"):
    ROWS[_word] = (False, 2, None, lambda w, a, b: ("Bit", 1) if two_numbers(a, b) else None)


def is_width(m, w):
    return 0 < w <= 64 and w % m == 0


def read_head(lines):
    """The message bits and the width of line 1."""
    words = lines[0] if lines else None
    if words is None or len(words) != 3 or words[0] != b"bits" or not is_numeral(words[1]) or not is_numeral(words[2]):
        raise line_fault(1, "form")
    m, width = int(words[1]), int(words[2])
    if m not in (2, 3) or not is_width(m, width):
        raise line_fault(1, "number")
    return m, width


def split_line(number, words):
    """The word of a line, its name, the numeral of its width, its arguments and its last numeral."""
    row = ROWS.get(words[0].decode("latin-1")) if words else None
    if row is None:
        raise line_fault(number, "form")
    stated, args, tail, _ = row
    rest = words[2 + stated:]
    names = words[1:2] + rest[:args]
    numerals = words[2:2 + stated] + rest[args:]
    if len(words) != 2 + stated + args + (tail is not None) or not all(map(NAME.fullmatch, names)) \
            or not all(map(is_numeral, numerals)):
        raise line_fault(number, "form")
    return words[0].decode(), names[0], [int(numeral) for numeral in numerals], names[1:]


class Circuit:
    """A circuit while it is read: its message bits and width, its lines, and the kinds of its names."""

    def __init__(self, m, width):
        self.m, self.width = m, width
        self.lines, self.kinds, self.inputs, self.outputs = [], {}, {}, {}

    def take(self, number, words):
        """Takes a line, or raises its first fault."""
        if words is None:
            raise line_fault(number, "form")
        word, name, numerals, args = split_line(number, words)
        stated, _, tail, rule = ROWS[word]
        width = numerals[0] if stated else self.width
        end = 2 ** min(width, 64) if tail == "value" else 256
        if stated and not is_width(self.m, width) or tail and numerals[-1] >= end:
            raise line_fault(number, "number")
        asked = [name] if word == "out" else args
        if any(arg not in self.kinds for arg in asked):
            raise line_fault(number, "unknown")
        kind = rule(width, *(self.kinds[arg] for arg in asked))
        if kind is None:
            raise line_fault(number, "kind")
        if name in (self.outputs if word == "out" else self.kinds):
            raise line_fault(number, "again")
        is_input = word in ("in", "inw", "ins", "inbit")
        if number > MOST_LINES or is_input and len(self.inputs) == MOST or word == "out" and len(self.outputs) == MOST:
            raise line_fault(number, "limit")
        self.keep(word, name, kind, numerals, args, is_input)

    def keep(self, word, name, kind, numerals, args, is_input):
        """Keeps a line that is right."""
        self.lines.append((word, name, kind, numerals, args))
        if word == "out":
            self.outputs[name] = kind
        else:
            self.kinds[name] = kind
        if is_input:
            self.inputs[name] = kind


def read_circuit(data):
    """The circuit of a text."""
    lines = lines_of(data)
    circuit = Circuit(*read_head(lines))
    for number, words in enumerate(lines[1:], 2):
        circuit.take(number, words)
    return circuit


def check_inputs(circuit, values):
    """Whether a value file gives each input as it is wanted."""
    for name, (kind, width) in circuit.inputs.items():
        if name not in values:
            raise Fault(8, f"inputs {name.decode()} missing")
        if values[name][:2] != (("bit", 1) if kind == "Bit" else ("int", width)):
            raise Fault(8, f"inputs {name.decode()} form")


def check_widths(m, values):
    """Whether the blocks make up the width of each number."""
    for name, (kind, bits, _) in values.items():
        if kind == "int" and bits % m:
            raise Fault(8, f"inputs {name.decode()} width {bits}")


# The jobs that a circuit has at most.

def log_up(base, x):
    """The least t with base to the t at least x."""
    t = 0
    while base ** t < x:
        t += 1
    return t


def round_jobs(blocks, most, count):
    if count <= 2:
        return 0
    groups = -(-count // most)
    return 2 * blocks * groups + round_jobs(blocks, most, 2 * groups)


def line_jobs(m, word, kind, first):
    """The jobs of a line that gives this kind, with the kind of its first argument."""
    w = (first or kind)[1]
    b = 1 if (first or kind)[0] == "Bit" else w // m
    most, k = 2 ** m + 1, log_up(2, w)
    add = 2 * b - 1 + (b - 1) * log_up(2, b)
    if word in ("in", "inw", "ins", "inbit", "out"):
        return 0
    if word in ("const", "constw", "and", "or", "xor", "not", "shl", "shr"):
        return b
    if word in ("add", "sub", "neg"):
        return add
    if word == "shrv" and kind[0] == "Sint":
        return k + 4 * b * k + 4 * b + 2
    if word in ("shlv", "shrv"):
        return k + 4 * b * k + 2 * b + 1
    if word in ("eq", "ne", "lt", "le", "gt", "ge"):
        return 2 * b - 1
    if word in ("min", "max"):
        return 5 * b - 1
    if word == "mul":
        return b * b + round_jobs(b, most, 2 * b - 1) + add
    if word in ("div", "rem"):
        return w * (8 * (b + 1) - 2 + b * log_up(2, b + 1)) + w + 2 * b + 2
    return max(0, kind[1] // m - b)


def job_bound(circuit):
    """The jobs that a circuit has at most."""
    total = 0
    for word, _, kind, _, args in circuit.lines:
        if word == "select":
            total += 3 * (kind[1] // circuit.m)
        else:
            total += line_jobs(circuit.m, word, kind, circuit.kinds[args[0]] if args else None)
    return total


def check_jobs(bound):
    """Whether a net may have so many jobs."""
    if bound > MOST_JOBS:
        raise Fault(10, f"limit jobs {bound}")


# What a run wants of its files.

def check_same(first, other):
    """Whether two sets are equal."""
    for field in FIELDS:
        if first[field] != other[field]:
            raise Fault(7, f"mismatch {{}} {field} {first[field]} {other[field]}")


def check_space(p, m):
    """Whether a net or a circuit has the message bits of a set."""
    if p["message_bits"] != m:
        raise Fault(7, f"mismatch {{}} message_bits {p['message_bits']} {m}")


def check_items(inputs, ciphers):
    """Whether the items of all files give each input of a net."""
    for name, (kind, bits, _, degree, noise) in inputs.items():
        found = [items[name] for items in ciphers if name in items]
        shown = name.decode()
        if len(found) != 1:
            raise Fault(8, f"inputs {shown} {'twice' if found else 'missing'}")
        if found[0][:2] != (kind, bits):
            raise Fault(8, f"inputs {shown} form")
        for has_degree, has_noise in found[0][2]:
            if has_degree > degree:
                raise Fault(8, f"inputs {shown} degree {has_degree} {degree}")
            if has_noise > noise:
                raise Fault(8, f"inputs {shown} noise {has_noise} {noise}")


def check_room(p, workers, jobs):
    """The limits of workers and of a board."""
    if not 1 <= workers <= MOST:
        raise Fault(10, f"limit workers {workers}")
    check_jobs(jobs)
    words = 1 + jobs * (block_words(p) + 2)
    if words > 2 ** 25:
        raise Fault(10, f"limit board {words}")
