"""Reads a module, so far as the tools ask about it or change it."""
import collections
import functools

from wasm.instructions import REF_FUNC, read_expression, read_value_type
from wasm.reader import Reader, Unreadable

HEADER = b"\0asm\1\0\0\0"
TYPES, IMPORTS, FUNCTIONS, TABLES, MEMORIES, GLOBALS, EXPORTS, START, ELEMENTS, CODE, DATA, DATA_COUNT = range(1, 13)
# The kinds of imports and exports.
FUNCTION, TABLE, MEMORY, GLOBAL = range(4)

# A section: its number, its content, and the places of floats there. Those in functions are places in the functions.
Section = collections.namedtuple("Section", "kind content floats")
FunctionType = collections.namedtuple("FunctionType", "parameters results")
# An import. `detail` is the index of a function's type, the value type of a global, or None.
Import = collections.namedtuple("Import", "module name kind detail")
Export = collections.namedtuple("Export", "name kind index")
# A function: the types of its groups of locals, its instructions, its bytes, and the places of floats in them.
Body = collections.namedtuple("Body", "locals instructions data floats")


def read_function_type(reader):
    """Reads a function type."""
    if reader.byte() != 0x60:
        raise Unreadable(f"unknown form of a type at offset {reader.at - 1}")
    return FunctionType(tuple(reader.vector(read_value_type)), tuple(reader.vector(read_value_type)))


def read_limits(reader):
    """Reads the limits of a table or a memory."""
    for _ in range(1 + reader.byte() % 2):
        reader.number()


def read_table_type(reader):
    """Reads the type of a table."""
    read_value_type(reader)
    read_limits(reader)


def read_global_type(reader):
    """Reads the type of a global. Returns its value type."""
    found = read_value_type(reader)
    reader.byte()
    return found


DETAILS = {FUNCTION: Reader.number, TABLE: read_table_type, MEMORY: read_limits, GLOBAL: read_global_type}


def read_import(reader):
    """Reads an import."""
    module, name, kind = reader.sized(), reader.sized(), reader.byte()
    if kind not in DETAILS:
        raise Unreadable(f"unknown kind of an import at offset {reader.at - 1}")
    return Import(module, name, kind, DETAILS[kind](reader))


def read_export(reader):
    """Reads an export."""
    return Export(reader.sized(), reader.byte(), reader.number())


def read_body(reader):
    """Reads the code of a function."""
    inner = Reader(reader.sized())
    groups = inner.vector(lambda _: (inner.number(), read_value_type(inner)))
    found = Body([value for _, value in groups], read_expression(inner), inner.data, inner.floats)
    if not inner.is_at_end():
        raise Unreadable("bytes after the end of a function")
    return found


class Module:
    """A module: its sections in order, and lists of what is in them."""

    def __init__(self, data):
        self.sections = []
        self.types, self.imports, self.functions, self.globals, self.exports = [], [], [], [], []
        self.elements, self.bodies, self.data = [], [], []
        self.start = None  # the index of the start function
        self.constants = []  # the instructions of each constant expression
        reader = Reader(data)
        if reader.take(len(HEADER)) != HEADER:
            raise Unreadable("no header of a module")
        while not reader.is_at_end():
            self.read_section(reader.byte(), Reader(reader.sized()))

    def read_section(self, kind, reader):
        """Reads what the tools need of a section."""
        self.sections.append(Section(kind, reader.data, reader.floats))
        if kind == START:
            self.start = reader.number()
        elif kind in LISTS:
            setattr(self, LISTS[kind][0], reader.vector(lambda _: LISTS[kind][1](self, reader)))

    def read_constant(self, reader):
        """Reads a constant expression."""
        self.constants.append(read_expression(reader))

    def read_global(self, reader):
        """Reads a global of the module's own. Returns its value type."""
        found = read_global_type(reader)
        self.read_constant(reader)
        return found

    def read_element(self, reader):
        """Reads an element segment. Returns the indices of the functions that it lists without expressions."""
        form = reader.number()
        if form & 1 == 0:
            if form & 2:
                reader.number()
            self.read_constant(reader)
        if form & 3:
            reader.byte()
        if form & 4:
            reader.vector(self.read_constant)
            return []
        return reader.vector(Reader.number)

    def read_data(self, reader):
        """Reads a data segment. Returns its bytes."""
        form = reader.number()
        if form == 2:
            reader.number()
        if form != 1:
            self.read_constant(reader)
        return reader.sized()

    @functools.cached_property
    def imported_functions(self):
        """The imports that are functions."""
        return [found for found in self.imports if found.kind == FUNCTION]

    @functools.cached_property
    def function_types(self):
        """The types of the functions by their indices, each None if it is not there."""
        return [item_at(self.types, index) for index in [found.detail for found in self.imported_functions] + self.functions]

    @functools.cached_property
    def global_types(self):
        """The value types of the globals by their indices."""
        return [found.detail for found in self.imports if found.kind == GLOBAL] + self.globals

    @functools.cached_property
    def referenced(self):
        """The indices of the functions to which there may be references: those in element segments, and those of ref.func."""
        lists = self.constants + [body.instructions for body in self.bodies]
        by_instructions = [found.operands[0] for each in lists for found in each if found.opcode == REF_FUNC]
        return {index for segment in self.elements for index in segment}.union(by_instructions)


def item_at(items, index):
    """Returns the item at an index, or None."""
    return items[index] if index < len(items) else None


def plain(read):
    """Returns a reader of an item that leaves the module alone."""
    return lambda _, reader: read(reader)


# The list of a module that a section fills, and what reads an item.
LISTS = {
    TYPES: ("types", plain(read_function_type)),
    IMPORTS: ("imports", plain(read_import)),
    FUNCTIONS: ("functions", plain(Reader.number)),
    GLOBALS: ("globals", Module.read_global),
    EXPORTS: ("exports", plain(read_export)),
    ELEMENTS: ("elements", Module.read_element),
    CODE: ("bodies", plain(read_body)),
    DATA: ("data", Module.read_data),
}
