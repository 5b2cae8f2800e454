"""What the tests share: the rows of bindings/rows.txt, their host functions, and a module of many exports.

The head of rows.txt describes the format of rows.
"""
import collections
import itertools
import os
import string

ROWS = os.path.join(os.path.dirname(os.path.abspath(__file__)), "../rows.txt")

# A row: the number of its line, the words of its command, and its expected result.
Row = collections.namedtuple("Row", "line words answer")
# A host function. `function` gets the memory (with len, read and write) and the numbers of its arguments, and returns values.
Host = collections.namedtuple("Host", "module name parameters results function")


class HostTrap(Exception):
    """A host function raises this to trap with a code."""


def read_rows():
    """Returns the modules by their names, and the rows."""
    modules, rows = {}, []
    with open(ROWS, encoding="utf-8") as file:
        for number, line in enumerate(file, 1):
            words = line.split(" -> ")[0].split()
            if " -> " in line and words[0] != "#":
                rows.append(Row(number, words, line.split(" -> ", 1)[1].strip()))
            elif words and words[0] == "module":
                modules[words[1]] = bytes.fromhex(words[2])
    return modules, rows


DIGITS = string.digits + string.ascii_letters
# The names of the exports of the module of many exports, and the number of parameters, and of results, of their function.
MANY_NAMES = ["".join(digits) for digits in itertools.islice(itertools.product(DIGITS, repeat=3), 29_300)]
MANY_TYPES = 1_000


def encode_leb(number):
    """Returns the unsigned LEB128 encoding of a number in four bytes."""
    return bytes([number >> 7 * k & 0x7F | (0x80 if k < 3 else 0) for k in range(4)])


def section(number, items):
    """Returns the section of this number with these items."""
    content = encode_leb(len(items)) + b"".join(items)
    return bytes([number]) + encode_leb(len(content)) + content


def exports_of_one_function(names, type_count=0):
    """Returns a module that exports one function under these names, each of fewer than 128 bytes. This is the module:

    (module
      (type $f (func (param i32 ..) (result i32 ..)))
      (func $f (type $f) unreachable)
      (export "000" (func $f)) (export "001" (func $f)) ..)
    """
    types = encode_leb(type_count) + b"\x7f" * type_count
    exports = [bytes([len(name)]) + name + b"\0\0" for name in names]
    sections = [section(1, [b"\x60" + types + types]), section(3, [b"\0"]), section(7, exports), section(10, [b"\3\0\0\x0b"])]
    return b"\0asm\1\0\0\0" + b"".join(sections)


def imports_of_functions(module, names):
    """Returns a module that imports functions without parameters and results from the module of this name.

    Each name must have fewer than 128 bytes.
    """
    imports = [bytes([len(module)]) + module + bytes([len(name)]) + name + b"\0\0" for name in names]
    return b"\0asm\1\0\0\0" + section(1, [b"\x60\0\0"]) + section(2, imports)


def many_exports():
    """Returns a module of 178 kB. If exports did not share types, their list would take 59 million types."""
    return exports_of_one_function([name.encode() for name in MANY_NAMES], MANY_TYPES)


# A quota, and modules that would take much more than it.
QUOTA, HOSTILE = 16_777_216, ("tables", "pages", "deep")
# (module (memory 1)), how many bytes a load and a link of it count, and how often it is linked.
PAGE, PAGE_LOADED, PAGE_LINKED, PAGE_LINKS = b"\0asm\1\0\0\0\5\3\1\0\1", 64 * 13, 512 + 192 + 65_536, 6_000


def most_memory(process):
    """Returns the peak memory of a process, in KiB."""
    with open(f"/proc/{process}/status", encoding="utf-8") as file:
        return next(int(line.split()[1]) for line in file if line.startswith("VmHWM:"))


def processor_seconds(process):
    """Returns the seconds of processor time that a process has taken."""
    with open(f"/proc/{process}/stat", encoding="utf-8") as file:
        fields = file.read().rpartition(")")[2].split()
    return (int(fields[11]) + int(fields[12])) / os.sysconf("SC_CLK_TCK")


class StandardHosts:
    """The standard host functions, with their state."""

    def __init__(self):
        self.calls, self.logged = 0, b""

    def count(self, _):
        self.calls += 1
        return [("i32", self.calls)]

    def log(self, memory, start, length):
        try:
            self.logged += memory.read(start, length)
        except IndexError:
            raise HostTrap(7) from None
        return []

    def fill(self, memory, start, length, byte):
        if start + length > len(memory):
            raise HostTrap(8)
        memory.write(start, bytes([byte]) * length)
        return []

    def fail(self, _, code):
        raise HostTrap(code)

    def all(self):
        """Returns the host functions in their order."""
        return [
            Host("env", "count", [], ["i32"], self.count),
            Host("env", "add", ["i32", "i32"], ["i32"], lambda _, first, second: [("i32", (first + second) % 2**32)]),
            Host("env", "swap", ["i64", "i32"], ["i32", "i64"], lambda _, first, second: [("i32", second), ("i64", first)]),
            Host("env", "log", ["i32", "i32"], [], self.log),
            Host("env", "fill", ["i32", "i32", "i32"], [], self.fill),
            Host("env", "fail", ["i32"], [], self.fail),
            Host("env", "wrong", [], ["i32"], lambda _: [("i64", 0)]),
            Host("env", "echo", ["externref"], ["externref"], lambda _, reference: [("externref", reference)]),
        ]


def read_types(text):
    """Reads a function type like `func(i32,i64)(i32)`. Returns the types of the parameters, and those of the results."""
    return [[name for name in part.split(",") if name] for part in text[len("func(") : -1].split(")(")]


def read_value(word):
    """Reads a value like `i32:5` or `funcref:null`."""
    name, number = word.split(":")
    return name, None if number == "null" else int(number)


def show_list(words):
    """Returns words with blanks between them, or `nothing` if there are none."""
    return " ".join(words) or "nothing"


def show_values(values):
    """Returns values in the format of the rows."""
    return show_list(f"{name}:{'null' if number is None else number}" for name, number in values)


def show_type(kind, *parts):
    """Returns the type of an export in the format of the rows.

    The parts of a function type are two lists of types. The parts of other types are strings, numbers and None.
    """
    if kind == "func":
        return "func" + "".join(f"({','.join(types)})" for types in parts)
    return f"{kind}({','.join(str(part).lower() for part in parts)})"


class Rows:
    """Runs the rows.

    `begin(setup, hosts, quota)` returns an embedding that runs commands, or None, and the result of `new`. Without a quota, it gets None.
    """

    def __init__(self, begin):
        self.begin, self.embedding, self.hosts = begin, None, None
        self.modules, self.rows = read_rows()

    def new(self, words, quota=None):
        """Ends the embedding, if there is one, and begins a new one. Returns the result."""
        self.close()
        self.hosts = StandardHosts()
        hosts = self.hosts.all()
        if len(words) > 4:
            hosts.append(Host(*words[4:6], *read_types(words[6]), None))
        self.embedding, answer = self.begin([int(word) for word in words[:4]], hosts, quota)
        return answer

    def script(self, words):
        """Runs a script, and returns the result."""
        files = [word.split("=") for word in words[1:]]
        return self.embedding.script(bytes.fromhex(words[0]), [(file, self.modules[name]) for file, name in files])

    def answer(self, command, *words):
        """Runs a command, and returns the result."""
        if command == "new":
            return self.new(words)
        if command == "new_with_quota":
            return self.new(words[1:], int(words[0]))
        if command == "load":
            return self.embedding.load(self.modules[words[0]])
        if command == "call":
            return self.embedding.call(int(words[0]), words[1], [read_value(word) for word in words[2:]])
        if command == "script":
            return self.script(words)
        if command == "logged":
            return self.hosts.logged.hex() or "nothing"
        return getattr(self.embedding, command)(*(int(word) if word.isdigit() else word for word in words))

    def close(self):
        """Ends the embedding, if there is one."""
        if self.embedding:
            self.embedding.close()
        self.embedding = None

    def run(self, tests):
        """Runs all rows, each as a test."""
        for row in self.rows:
            tests.equal(self.answer(*row.words), row.answer, f"rows.txt, line {row.line}: {' '.join(row.words)[:80]}")
        self.close()


class Tests:
    """Counts the tests that passed and those that failed."""

    def __init__(self):
        self.passed, self.failed = 0, 0

    def equal(self, found, wanted, name):
        """Runs a test, which passes if `found` equals `wanted`."""
        if found == wanted:
            self.passed += 1
        else:
            self.failed += 1
            print(f"failed: {name}\n  wanted {wanted!r}\n  found  {found!r}")

    def end(self):
        """Prints the counts, and returns the status: 0 if tests passed and none failed, or else 1."""
        print(f"{self.passed} passed, {self.failed} failed")
        return 1 if self.failed or not self.passed else 0
