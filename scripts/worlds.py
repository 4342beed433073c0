"""A world of valid files, made by the program itself: sets, clients, keys and numbers under encryption of both versions,
circuits, value files and nets. The sets are small, so that a command takes milliseconds."""

import os
import subprocess

ZEROS, ONES = "0" * 64, "1" * 64
# accepted sets with as few coefficients as their blocks allow
SMALL = {"two": (2, 1, 64, 2, 12, 2, 4, 6, 17, 20), "three": (3, 1, 256, 2, 12, 3, 5, 6, 17, 20),
         "wide": (2, 2, 64, 1, 12, 2, 4, 6, 17, 20)}
FIELDS = ("message_bits", "glwe_dim", "poly_size", "lwe_dim", "pbs_base_log", "pbs_level", "ks_base_log", "ks_level",
          "glwe_bound", "lwe_bound")
CIRCUITS = {
    "back": ("bits 2 2\nin a\nout a\n", "int a 2 3\n"),
    "bare": ("bits 2 2\n", ""),
    "sum": ("bits 2 8\nin a\nin b\nadd s a b\nout s\n", "int a 8 200\nint b 8 100\n"),
    "mixed": ("bits 2 4\nins a 4\ninw n 4\ninbit t\ncasts c 6 a\nshrv d a n\nselect e t a d\nlt l a e\n"
              "out c\nout e\nout l\n",
              "int a 4 9\nint n 4 1\nbit t 1 1\nint spare 6 5\n"),
    "least": ("bits 2 4\nin a\nconst b 5\nmin m a b\nmul p a b\ndiv q a b\nnot x q\nout m\nout p\nout x\n",
              "int a 4 9\n"),
    "nine": ("bits 3 9\nin a\ninbit t\nconst one 1\nadd s a one\nnot u t\nshl v s 3\nout v\nout u\n",
             "int a 9 511\nbit t 1 0\n"),
}


class World:
    """A folder of valid files. `kinds` has their names by kind, and `sets` the set of each file that has one."""

    def __init__(self, program, folder):
        self.program, self.folder = program, folder
        self.kinds = {}
        self.sets = {}
        self.make_all()
        self.whole = {name: self.bytes(name) for name in os.listdir(folder)}

    def call(self, line):
        """Runs the program, which must end with status 0."""
        words = [ZEROS if word == "Z" else ONES if word == "U" else word for word in line.split()]
        done = subprocess.run([self.program, *words], cwd=self.folder, capture_output=True, timeout=60, check=False)
        if done.returncode != 0:
            raise SystemExit(f"the world was not made: {line}: {done.returncode} {done.stdout}")

    def bytes(self, name):
        """The bytes of a file."""
        with open(os.path.join(self.folder, name), "rb") as file:
            return file.read()

    def add(self, kind, name, of_set=None):
        """Keeps a name of a kind."""
        self.kinds.setdefault(kind, []).append(name)
        self.sets[name] = of_set

    def text(self, kind, name, text, of_set=None):
        """Writes a text."""
        with open(os.path.join(self.folder, name), "w", encoding="ascii") as file:
            file.write(text)
        self.add(kind, name, of_set)

    def make_all(self):
        for name, numbers in SMALL.items():
            self.text("set", f"{name}.set", "".join(f"{field} {n}\n" for field, n in zip(FIELDS, numbers)), name)
        for name, (circuit, values) in CIRCUITS.items():
            of_set = "three" if name == "nine" else "two"
            self.text("circuit", name, circuit, of_set)
            self.text("values", f"{name}.values", values, of_set)
        for of_set in SMALL:
            self.make_keys(of_set)
        for name in CIRCUITS:
            self.make_numbers(name, "three" if name == "nine" else "two")
        self.call("encrypt wide.client U Z sum.values sum.wide")
        self.add("numbers", "sum.wide", "wide")

    def make_keys(self, of_set):
        """The client and the keys of a set."""
        self.call(f"client {of_set}.set Z {of_set}.client")
        self.call(f"keygen {of_set}.client U {of_set}.seeded")
        self.call(f"expand {of_set}.seeded {of_set}.key")
        self.add("client", f"{of_set}.client", of_set)
        self.add("key", f"{of_set}.key", of_set)
        self.add("seeded key", f"{of_set}.seeded", of_set)

    def make_numbers(self, name, of_set):
        """The inputs of a circuit under encryption, its net, and the outputs of its run."""
        self.call(f"encrypt {of_set}.client U Z {name}.values {name}.seeded")
        self.call(f"expand {name}.seeded {name}.numbers")
        self.call(f"compile {name} {name}.net")
        self.call(f"run {of_set}.key {name}.net 1 {name}.outputs {name}.numbers")
        self.add("seeded numbers", f"{name}.seeded", of_set)
        self.add("numbers", f"{name}.numbers", of_set)
        self.add("numbers", f"{name}.outputs", of_set)
        self.add("net", f"{name}.net", of_set)
