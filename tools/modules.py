"""Encodes modules in the binary format, for the other tools."""

HEADER = b"\0asm\1\0\0\0"
I32 = 0x7F
TYPES, FUNCTIONS, TABLES, MEMORIES, GLOBALS, EXPORTS, ELEMENTS, DATA_COUNT, CODE, DATA = 1, 3, 4, 5, 6, 7, 9, 12, 10, 11
ORDER = [TYPES, FUNCTIONS, TABLES, MEMORIES, GLOBALS, EXPORTS, ELEMENTS, DATA_COUNT, CODE, DATA]


def number(value):
    """Returns the unsigned LEB128 encoding of a number."""
    out = bytearray()
    while value >= 0x80:
        out.append(value & 0x7F | 0x80)
        value >>= 7
    return bytes(out) + bytes([value])


def signed_number(value):
    """Returns the signed LEB128 encoding of a number."""
    out = bytearray()
    while not -0x40 <= value < 0x40:
        out.append(value & 0x7F | 0x80)
        value >>= 7
    return bytes(out) + bytes([value & 0x7F])


def constant(value):
    """Returns the encoding of i32.const with a number."""
    return b"\x41" + signed_number(value)


def vector(items):
    """Returns the encoding of a vector of these encoded items."""
    return number(len(items)) + b"".join(items)


def sized(content):
    """Returns bytes, preceded by the encoding of their number."""
    return number(len(content)) + content


def function_type(parameters, results):
    """Returns the encoding of a function type with these numbers of i32 parameters and results."""
    return b"\x60" + sized(bytes([I32] * parameters)) + sized(bytes([I32] * results))


def export(name, index):
    """Returns the encoding of the export of a function."""
    return sized(name) + b"\0" + number(index)


def function(instructions, groups=b"\0"):
    """Returns the encoding of the code of a function, from its groups of locals and its instructions without the last `end`."""
    return sized(groups + instructions + b"\x0b")


def module(sections):
    """Returns a module with these sections, which are contents by the numbers of the sections."""
    return HEADER + b"".join(bytes([key]) + sized(content) for key, content in sections.items())


def one_function(code, parameters=0, results=0, others={}):
    """Returns a module with one function, which is exported as `f`, and with other sections."""
    sections = {
        TYPES: vector([function_type(parameters, results)]),
        FUNCTIONS: vector([b"\0"]),
        EXPORTS: vector([export(b"f", 0)]),
        CODE: vector([code]),
        **others,
    }
    return module({key: sections[key] for key in sorted(sections, key=ORDER.index)})
