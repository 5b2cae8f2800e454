"""Makes modules from others: with a function that calls an export and checks its result, or with their functions repeated."""
from modules import CODE, EXPORTS, FUNCTIONS, TYPES, constant, export, function, function_type, module, number, signed_number
from wasm.instructions import I32, I64
from wasm.module import Module
from wasm.reader import Reader

BITS = {I32: 32, I64: 64}
CONSTANTS, DIFFERS = {I32: b"\x41", I64: b"\x42"}, {I32: b"\x47", I64: b"\x52"}
NAMES = {"i32": I32, "i64": I64}
# (local i32)
COUNTER = b"\x01\x01\x7f"


def number_constant(value_type, value):
    """Returns the encoding of an instruction that pushes an unsigned number."""
    bits = BITS[value_type]
    return CONSTANTS[value_type] + signed_number(value - (1 << bits) if value >> (bits - 1) else value)


def check_call(found, index, arguments, answer):
    """Returns the encoding of a call of a function of a module, and of a trap unless the result is the answer, which is such as `i32 7`."""
    value_type, value = answer.split()
    pushes = b"".join(map(number_constant, found.function_types[index].parameters, arguments))
    result = NAMES[value_type]
    return pushes + b"\x10" + number(index) + number_constant(result, int(value)) + DIFFERS[result] + b"\x04\x40\x00\x0b"


def loop(code, times):
    """Returns the encoding of a loop that executes code this many times, in a function whose only local is the counter."""
    return constant(times) + b"\x21\0\x03\x40" + code + b"\x20\0\x41\1\x6b\x22\0\x0d\0\x0b"


def appended(content, item):
    """Returns the content of a section that is a vector, with an item more."""
    reader = Reader(content)
    count = reader.number()
    return number(count + 1) + content[reader.at :] + item


def with_start(data, name, arguments, answer, times):
    """Returns a module with a function `_start`, which calls an export with arguments this many times and traps at a wrong result."""
    found = Module(data)
    index = next(each.index for each in found.exports if each.name == name.encode())
    more = {
        TYPES: function_type(0, 0),
        FUNCTIONS: number(len(found.types)),
        EXPORTS: export(b"_start", len(found.function_types)),
        CODE: function(loop(check_call(found, index, arguments, answer), times), COUNTER),
    }
    return module({kind: appended(content, more[kind]) if kind in more else content for kind, content, _ in found.sections})


def repeated(data, times):
    """Returns a module with its functions repeated this many times."""
    sections = {kind: content for kind, content, _ in Module(data).sections}
    for kind in (FUNCTIONS, CODE):
        reader = Reader(sections[kind])
        count = reader.number()
        sections[kind] = number(count * times) + reader.data[reader.at :] * times
    return module(sections)
