"""Makes random valid modules for `attack`, and changes their bytes.

`Maker(rng, hosts).module()` returns a module over the integer and reference types: functions, tables, a memory, globals, segments, imports
and exports. Each piece of code is made for the type of the operand that it pushes, so the module is valid. `changed(rng, data)` changes
some of its bytes.
"""
import os
import sys

sys.path.insert(0, os.path.join(os.path.dirname(os.path.abspath(__file__)), ".."))

from modules import module, number, sized, vector  # noqa: E402

TYPES = {"i32": b"\x7f", "i64": b"\x7e", "funcref": b"\x70", "externref": b"\x6f"}
HEAP = {"funcref": b"\x70", "externref": b"\x6f"}
TYPE, IMPORT, FUNCTION, TABLE, MEMORY, GLOBAL, EXPORT, START, ELEMENT, CODE, DATA, DATA_COUNT = range(1, 13)
EMPTY = b"\x40"  # the type of a block without results
UNARY = {"i32": [0x45, 0x67, 0x68, 0x69, 0xC0, 0xC1], "i64": [0x79, 0x7A, 0x7B, 0xC2, 0xC3, 0xC4]}
BINARY = {"i32": range(0x6A, 0x79), "i64": range(0x7C, 0x8B)}
COMPARED = {"i32": range(0x46, 0x50), "i64": range(0x51, 0x5B)}
# The loads and stores of each type: their opcodes, each with its greatest alignment.
LOADS = {"i32": [(0x28, 2), (0x2C, 0), (0x2D, 0), (0x2E, 1), (0x2F, 1)], "i64": [(0x29, 3), (0x30, 0), (0x33, 1), (0x34, 2), (0x35, 2)]}
STORES = {"i32": [(0x36, 2), (0x3A, 0), (0x3B, 1)], "i64": [(0x37, 3), (0x3C, 0), (0x3D, 1), (0x3E, 2)]}
NUMBERS = [0, 1, -1, 2, 7, 8, 100, 255, 4_096, 65_535, 65_536, 2**31 - 1, -(2**31)]
BYTES = [0, 1, 2, 4, 0x0B, 0x10, 0x6F, 0x70, 0x7F, 0x80, 0xFF]
NAMES = ["a", "b", "run", "memory", "table", "", "é", "long" * 20]


def signed(value):
    """Returns the signed LEB128 encoding of a number."""
    out = bytearray()
    while not -64 <= value < 64:
        out.append(value & 0x7F | 0x80)
        value >>= 7
    return bytes(out) + bytes([value & 0x7F])


def function_type(parameters, results):
    """Returns the encoding of a function type."""
    return b"\x60" + vector([TYPES[name] for name in parameters]) + vector([TYPES[name] for name in results])


def limits(minimum, maximum):
    """Returns the encoding of limits; the maximum may be None."""
    return b"\0" + number(minimum) if maximum is None else b"\1" + number(minimum) + number(maximum)


class Maker:
    """Makes a module. It may import the host functions, each of which is a module, a name, parameters and results."""

    def __init__(self, rng, hosts):
        self.rng = rng
        self.types = []  # the function types, in the order of their indices
        self.imports = rng.sample(hosts, rng.randrange(len(hosts) + 1))
        self.functions = [(parameters, results) for _, _, parameters, results in self.imports]
        self.own = [self.some_function_type() for _ in range(rng.randrange(1, 5))]
        self.functions += self.own
        self.tables = [(rng.choice(list(HEAP)), rng.randrange(8), rng.choice([None, 8, 20])) for _ in range(rng.randrange(3))]
        self.memory = rng.choice([None, (0, None), (1, None), (1, 3), (2, 2)])
        self.globals = [(rng.choice(list(TYPES)), rng.random() < 0.7) for _ in range(rng.randrange(4))]
        self.segments = [rng.choice(list(HEAP)) for _ in range(rng.randrange(3))]
        self.data = rng.randrange(3) if self.memory else 0
        self.locals, self.labels, self.results = [], [], []  # of the current function

    def some_types(self, most):
        """Returns up to this many types, mostly integers."""
        return [self.rng.choice(["i32", "i32", "i64", "i64", "externref", "funcref"]) for _ in range(self.rng.randrange(most + 1))]

    def some_function_type(self):
        """Returns the parameters and the results of a function, which are sometimes those of another one."""
        if self.functions and self.rng.random() < 0.3:
            return self.rng.choice(self.functions)
        return ([], []) if self.rng.random() < 0.2 else (self.some_types(3), self.some_types(2))

    def type_index(self, parameters, results):
        """Returns the encoded index of a function type."""
        if (parameters, results) not in self.types:
            self.types.append((parameters, results))
        return number(self.types.index((parameters, results)))

    def indices(self, things, wanted):
        """Returns the indices of the things for which `wanted` is true."""
        return [index for index, thing in enumerate(things) if wanted(thing)]

    def constant(self, name):
        """Returns code that pushes a constant of a type."""
        if name in HEAP:
            return b"\xd0" + HEAP[name]
        value = self.rng.choice([*NUMBERS, self.rng.randrange(-(2**31), 2**31)])
        return (b"\x41" if name == "i32" else b"\x42") + signed(value)

    def address(self, depth):
        """Returns code that pushes an i32 that is often within a page."""
        mask = self.rng.choice([0x7, 0xFF, 0xFFFF, 0x1FFFF])
        return self.expression("i32", depth - 1) + b"\x41" + signed(mask) + b"\x71"

    def access(self, opcode, align):
        """Returns a load or a store."""
        return bytes([opcode]) + number(self.rng.randrange(align + 1)) + number(self.rng.choice([0, 0, 1, 100, 65_530, 2**32 - 1]))

    def expressions(self, names, depth):
        """Returns code that pushes values of these types."""
        return b"".join(self.expression(name, depth) for name in names)

    def expression(self, name, depth):
        """Returns code that pushes a value of a type."""
        ways = [self.simple]
        if depth > 0:
            ways += [self.block, self.call, self.chosen, self.teed]
            ways += [self.integer] * 4 if name in ("i32", "i64") else [self.reference] * 2
        return self.rng.choice(ways)(name, depth)

    def simple(self, name, _):
        """Returns code that pushes a constant, a local or a global."""
        locals_, globals_ = self.indices(self.locals, lambda local: local == name), self.indices(self.globals, lambda item: item[0] == name)
        ways = [lambda: self.constant(name)]
        ways += [lambda: b"\x20" + number(self.rng.choice(locals_))] * (2 * bool(locals_))
        ways += [lambda: b"\x23" + number(self.rng.choice(globals_))] * bool(globals_)
        return self.rng.choice(ways)()

    def teed(self, name, depth):
        """Returns code that pushes a value, and sets a local to it if there is one of its type."""
        locals_ = self.indices(self.locals, lambda local: local == name)
        value = self.expression(name, depth - 1)
        return value + b"\x22" + number(self.rng.choice(locals_)) if locals_ else value

    def chosen(self, name, depth):
        """Returns code with a select."""
        code = self.expressions([name, name, "i32"], depth - 1)
        return code + (b"\x1c\1" + TYPES[name] if name in HEAP or self.rng.random() < 0.3 else b"\x1b")

    def block(self, name, depth):
        """Returns a block, a loop or an if that pushes a value."""
        kind = self.rng.choice([2, 3, 4])
        start = (self.expression("i32", depth - 1) if kind == 4 else b"") + bytes([kind]) + TYPES[name]
        self.labels.append([] if kind == 3 else [name])
        code = start + self.statements(depth - 1) + self.left_in_block(name, depth - 1, kind)
        if kind == 4:
            code += b"\x05" + self.statements(depth - 1) + self.expression(name, depth - 1)
        self.labels.pop()
        return code + b"\x0b"

    def left_in_block(self, name, depth, kind):
        """Returns the end of a block, which may branch out of it."""
        value = self.expression(name, depth)
        return value + self.expression("i32", depth) + b"\x0d\0" if kind != 3 and self.rng.random() < 0.4 else value

    def integer(self, name, depth):
        """Returns an operation that pushes an integer."""
        other = "i64" if name == "i32" else "i32"
        ways = [
            lambda: self.expression(name, depth - 1) + bytes([self.rng.choice(UNARY[name])]),
            lambda: self.expressions([name, name], depth - 1) + bytes([self.rng.choice(BINARY[name])]),
            lambda: self.expression(other, depth - 1) + (b"\xa7" if name == "i32" else self.rng.choice([b"\xac", b"\xad"])),
        ]
        if name == "i32":
            ways += [lambda: self.compared(self.rng.choice(["i32", "i64"]), depth), lambda: self.asked(depth)]
        if self.memory:
            ways += [lambda: self.address(depth) + self.access(*self.rng.choice(LOADS[name]))] * 2
        return self.rng.choice(ways)()

    def compared(self, name, depth):
        """Returns a comparison."""
        return self.expressions([name, name], depth - 1) + bytes([self.rng.choice(COMPARED[name])])

    def asked(self, depth):
        """Returns code that pushes an i32 about a reference, a table or the memory."""
        ways = [lambda: self.expression(self.rng.choice(list(HEAP)), depth - 1) + b"\xd1"]
        if self.memory:
            ways += [lambda: b"\x3f\0", lambda: b"\x41" + signed(self.rng.randrange(3)) + b"\x40\0"]
        if self.tables:
            table = self.rng.randrange(len(self.tables))
            ways += [lambda: b"\xfc\x10" + number(table), lambda: self.grown_table(table, depth)]
        return self.rng.choice(ways)()

    def grown_table(self, table, depth):
        """Returns code that grows a table."""
        return self.expression(self.tables[table][0], depth - 1) + b"\x41" + signed(self.rng.randrange(4)) + b"\xfc\x0f" + number(table)

    def reference(self, name, depth):
        """Returns code that pushes a reference."""
        tables = self.indices(self.tables, lambda table: table[0] == name)
        if tables and self.rng.random() < 0.6:
            return self.small(depth) + b"\x25" + number(self.rng.choice(tables))
        return b"\xd2" + number(self.rng.randrange(len(self.functions))) if name == "funcref" else self.constant(name)

    def small(self, depth):
        """Returns code that pushes an i32 that is often an index of a table."""
        return self.expression("i32", depth - 1) + b"\x41\x07\x71"

    def call(self, name, depth):
        """Returns a call of a function whose first result has this type. Its other results are dropped."""
        functions = self.indices(self.functions, lambda function: function[1][:1] == [name])
        if not functions:
            return self.simple(name, depth)
        parameters, results = self.functions[self.rng.choice(functions)]
        return self.called(parameters, results, depth) + b"\x1a" * (len(results) - 1)

    def called(self, parameters, results, depth, tail=False):
        """Returns a call, direct or through a table, of a function of this type."""
        tables = self.indices(self.tables, lambda table: table[0] == "funcref")
        code = self.expressions(parameters, depth - 1)
        if tables and self.rng.random() < 0.3:
            opcode = b"\x13" if tail else b"\x11"
            return code + self.small(depth) + opcode + self.type_index(parameters, results) + number(self.rng.choice(tables))
        functions = self.indices(self.functions, lambda function: function == (parameters, results))
        return code + (b"\x12" if tail else b"\x10") + number(self.rng.choice(functions))

    def statements(self, depth):
        """Returns some statements."""
        return b"".join(self.statement(depth) for _ in range(self.rng.choice([0, 1, 1, 2])))

    def statement(self, depth):
        """Returns code that pushes nothing."""
        if depth <= 0:
            return b"\x01"
        ways = [self.dropped, self.set, self.nested, self.branch, self.called_for_nothing]
        ways += [self.stored, self.moved] * bool(self.memory) + [self.table_statement] * bool(self.tables)
        return self.rng.choice(ways)(depth)

    def dropped(self, depth):
        return self.expression(self.rng.choice(list(TYPES)), depth - 1) + b"\x1a"

    def set(self, depth):
        """Returns code that sets a local or a global."""
        places = [(b"\x21", index, name) for index, name in enumerate(self.locals)]
        places += [(b"\x24", index, name) for index, (name, is_mutable) in enumerate(self.globals) if is_mutable]
        if not places:
            return b"\x01"
        opcode, index, name = self.rng.choice(places)
        return self.expression(name, depth - 1) + opcode + number(index)

    def nested(self, depth):
        """Returns a block, a loop or an if of statements."""
        kind = self.rng.choice([2, 3, 4])
        start = (self.expression("i32", depth - 1) if kind == 4 else b"") + bytes([kind]) + EMPTY
        self.labels.append([])
        code = start + self.statements(depth - 1)
        if kind == 3 and self.rng.random() < 0.6:
            code += self.expression("i32", depth - 1) + b"\x0d\0"
        if kind == 4 and self.rng.random() < 0.5:
            code += b"\x05" + self.statements(depth - 1)
        self.labels.pop()
        return code + b"\x0b"

    def branch(self, depth):
        """Returns a branch, a return, a tail call or a trap."""
        empty = [index for index, label in enumerate(reversed(self.labels)) if not label]
        target = self.rng.randrange(len(self.labels))
        ways = [lambda: self.expressions(self.labels[-1 - target], depth - 1) + b"\x0c" + number(target)]
        ways += [lambda: self.expressions(self.results, depth - 1) + b"\x0f", lambda: b"\0"]
        tails = [function for function in self.functions if function[1] == self.results]
        ways += [lambda: self.called(*self.rng.choice(tails), depth, tail=True)] * (2 * bool(tails))
        if empty:
            labels = [self.rng.choice(empty) for _ in range(3)]
            ways += [lambda: self.expression("i32", depth - 1) + b"\x0d" + number(labels[0])] * 4
            ways += [lambda: self.small(depth) + b"\x0e" + vector([number(label) for label in labels[:2]]) + number(labels[2])]
        return self.rng.choice(ways)()

    def called_for_nothing(self, depth):
        """Returns a call whose results are dropped."""
        parameters, results = self.rng.choice(self.functions)
        return self.called(parameters, results, depth) + b"\x1a" * len(results)

    def stored(self, depth):
        """Returns a store."""
        name = self.rng.choice(["i32", "i64"])
        return self.address(depth) + self.expression(name, depth - 1) + self.access(*self.rng.choice(STORES[name]))

    def moved(self, depth):
        """Returns code that fills or copies memory, or uses a data segment."""
        operands = self.address(depth) + self.address(depth) + self.small(depth)
        ways = [operands + b"\xfc\x0a\0\0", operands + b"\xfc\x0b\0"]
        if self.data:
            segment = number(self.rng.randrange(self.data))
            ways += [operands + b"\xfc\x08" + segment + b"\0", b"\xfc\x09" + segment]
        return self.rng.choice(ways)

    def table_statement(self, depth):
        """Returns code that sets, fills, copies or initializes a table."""
        table = self.rng.randrange(len(self.tables))
        name, index, value = self.tables[table][0], number(table), self.expression(self.tables[table][0], depth - 1)
        alike = self.indices(self.tables, lambda other: other[0] == name)
        segments = self.indices(self.segments, lambda segment: segment == name)
        thrice = self.small(depth) + self.small(depth) + self.small(depth)
        ways = [self.small(depth) + value + b"\x26" + index, self.small(depth) + value + self.small(depth) + b"\xfc\x11" + index]
        ways += [thrice + b"\xfc\x0e" + index + number(self.rng.choice(alike))]
        if segments:
            segment = number(self.rng.choice(segments))
            ways += [thrice + b"\xfc\x0c" + segment + index, b"\xfc\x0d" + segment]
        return self.rng.choice(ways)

    def body(self, parameters, results):
        """Returns the code of a function."""
        own = self.some_types(3)
        self.locals, self.labels, self.results = parameters + own, [results], results
        depth = self.rng.choice([1, 2, 3, 4])
        code = self.statements(depth) + self.statements(depth) + self.expressions(results, depth)
        return sized(vector([b"\1" + TYPES[name] for name in own]) + code + b"\x0b")

    def initial(self, name):
        """Returns a constant expression, which may be an extended one."""
        if name in ("i32", "i64") and self.rng.random() < 0.3:
            opcode = self.rng.choice(b"\x6a\x6b\x6c" if name == "i32" else b"\x7c\x7d\x7e")
            return self.constant(name) + self.constant(name) + bytes([opcode]) + b"\x0b"
        if name == "funcref" and self.rng.random() < 0.6:
            return b"\xd2" + number(self.rng.randrange(len(self.functions))) + b"\x0b"
        return self.constant(name) + b"\x0b"

    def offset(self):
        """Returns the offset of an active segment, which is mostly small."""
        return b"\x41" + signed(self.rng.choice([0] * 9 + [1, 1, 2, 2, 5, 65_535, -1])) + b"\x0b"

    def element(self, name):
        """Returns an element segment."""
        items = vector([self.initial(name) for _ in range(self.rng.randrange(4))])
        tables = self.indices(self.tables, lambda table: table[0] == name)
        if tables and self.rng.random() < 0.5:
            return b"\x06" + number(self.rng.choice(tables)) + self.offset() + TYPES[name] + items
        return b"\x05" + TYPES[name] + items

    def data_segment(self):
        """Returns a data segment."""
        data = sized(bytes(self.rng.randrange(256) for _ in range(self.rng.randrange(10))))
        return b"\0" + self.offset() + data if self.rng.random() < 0.5 else b"\1" + data

    def exports(self):
        """Returns exports of most functions, tables, memories and globals, under different names."""
        counts = [len(self.functions), len(self.tables), int(bool(self.memory)), len(self.globals)]
        things = [(kind, index) for kind, count in enumerate(counts) for index in range(count)]
        names = [*NAMES, *(f"{kind}{index}" for kind, index in things)]
        self.rng.shuffle(names)
        named = [(name, *thing) for name, thing in zip(names, things) if self.rng.random() < 0.9]
        return [sized(name.encode()) + bytes([kind]) + number(index) for name, kind, index in named]

    def module(self):
        """Returns the module."""
        imports = [sized(where.encode()) + sized(name.encode()) + b"\0" + self.type_index(*type_) for where, name, *type_ in self.imports]
        functions = [self.type_index(*type_) for type_ in self.own]
        bodies = [self.body(*type_) for type_ in self.own]
        starts = self.indices(self.functions, lambda function: function == ([], []))
        declared = b"\x03\0" + vector([number(index) for index in range(len(self.functions))])
        sections = {
            IMPORT: vector(imports),
            FUNCTION: vector(functions),
            TABLE: vector([TYPES[name] + limits(minimum, maximum) for name, minimum, maximum in self.tables]),
            MEMORY: vector([limits(*self.memory)] if self.memory else []),
            GLOBAL: vector([TYPES[name] + bytes([is_mutable]) + self.initial(name) for name, is_mutable in self.globals]),
            EXPORT: vector(self.exports()),
            START: number(self.rng.choice(starts)) if starts and self.rng.random() < 0.15 else None,
            ELEMENT: vector([self.element(name) for name in self.segments] + [declared]),
            DATA_COUNT: number(self.data),
            CODE: vector(bodies),
            DATA: vector([self.data_segment() for _ in range(self.data)]),
        }
        types = {TYPE: vector([function_type(*type_) for type_ in self.types])}
        return module({**types, **{key: content for key, content in sections.items() if content is not None}})


def changed(rng, data):
    """Returns bytes with some changes."""
    data = bytearray(data)
    for _ in range(rng.choice([1, 1, 2, 4])):
        at = rng.randrange(len(data) + 1)
        some = bytes(rng.choice([*BYTES, rng.randrange(256)]) for _ in range(rng.choice([1, 1, 2, 5])))
        start, end = rng.choice([(at, at + len(some)), (at, at), (at, at + 1)])
        data[start:end] = some if rng.random() < 0.8 else b""
    return bytes(data[: rng.randrange(len(data) + 1)] if rng.random() < 0.05 else data)
