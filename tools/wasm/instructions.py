"""Reads value types, and the instructions of a function or of a constant expression."""
import collections

from wasm.reader import Reader, Unreadable, Vectors

I32, I64, F32, F64, V128, FUNCREF, EXTERNREF = 0x7F, 0x7E, 0x7D, 0x7C, 0x7B, 0x70, 0x6F
VALUE_TYPES = (I32, I64, F32, F64, V128, FUNCREF, EXTERNREF)
EMPTY_BLOCK = 0x40
# The place of a floating-point type, or of a constant of such a type.
FloatPlace = collections.namedtuple("FloatPlace", "start end value is_constant")

# An instruction: its opcode (0xfc00 + k for the number k after 0xfc), and its operands in order.
Instruction = collections.namedtuple("Instruction", "opcode operands")
BLOCK, LOOP, IF, END = 0x02, 0x03, 0x04, 0x0B
CALL, CALL_INDIRECT, RETURN_CALL, RETURN_CALL_INDIRECT = 0x10, 0x11, 0x12, 0x13
SELECT, SELECT_TYPED, GLOBAL_GET, GLOBAL_SET = 0x1B, 0x1C, 0x23, 0x24
F32_CONST, F64_CONST = 0x43, 0x44
REF_NULL, REF_FUNC = 0xD0, 0xD2
MEMORY_INIT, DATA_DROP = 0xFC08, 0xFC09
LOADS_AND_STORES = range(0x28, 0x3F)
VECTOR_PREFIX, LONG_PREFIX = 0xFD, 0xFC


def read_value_type(reader):
    """Reads a value type."""
    start, found = reader.at, reader.byte()
    if found == V128:
        raise Vectors(f"a vector type at offset {start}")
    if found not in VALUE_TYPES:
        raise Unreadable(f"unknown value type {found:#x} at offset {start}")
    if found in (F32, F64):
        reader.floats.append(FloatPlace(start, reader.at, found, False))
    return found


def read_block_type(reader):
    """Reads the type of a block. Returns the index of a type, or None."""
    following = reader.peek()
    if following in VALUE_TYPES:
        read_value_type(reader)
    elif following == EMPTY_BLOCK:
        reader.byte()
    else:
        found = reader.signed()
        if found < 0:
            raise Unreadable(f"unknown type of a block before offset {reader.at}")
        return found
    return None


def read_labels(reader):
    """Reads the labels of br_table."""
    return reader.vector(Reader.number) + [reader.number()]


def one(read):
    """Returns a reader of one operand."""
    return lambda reader: [read(reader)]


def numbers(count):
    """Returns a reader of this many unsigned numbers."""
    return lambda reader: [reader.number() for _ in range(count)]


def constant(size, value):
    """Returns a reader of a floating-point constant. Its place is that of its opcode and its bytes."""

    def read(reader):
        start = reader.at - 1
        operands = [reader.take(size)]
        reader.floats.append(FloatPlace(start, reader.at, value, True))
        return operands

    return read


def operand_readers():
    """Returns a dictionary from opcodes to what reads their operands."""
    table = {opcode: numbers(0) for opcode in [0x00, 0x01, 0x05, END, 0x0F, 0x1A, SELECT, *range(0x45, 0xC5), 0xD1]}
    table.update({opcode: numbers(1) for opcode in [0x0C, 0x0D, CALL, RETURN_CALL, *range(0x20, 0x27), 0x3F, 0x40, REF_FUNC]})
    table.update({opcode: numbers(2) for opcode in [CALL_INDIRECT, RETURN_CALL_INDIRECT, *LOADS_AND_STORES]})
    table.update({opcode: one(read_block_type) for opcode in [BLOCK, LOOP, IF]})
    table.update({0x41: one(Reader.signed), 0x42: one(Reader.signed), F32_CONST: constant(4, F32), F64_CONST: constant(8, F64)})
    table.update({0x0E: read_labels, SELECT_TYPED: one(lambda reader: reader.vector(read_value_type)), REF_NULL: one(Reader.byte)})
    after_prefix = [0, 0, 0, 0, 0, 0, 0, 0, 2, 1, 2, 1, 2, 1, 2, 1, 1, 1]
    table.update({0xFC00 + k: numbers(count) for k, count in enumerate(after_prefix)})
    return table


OPERANDS = operand_readers()


def read_instruction(reader):
    """Reads an instruction."""
    start, opcode = reader.at, reader.byte()
    if opcode == VECTOR_PREFIX:
        raise Vectors(f"a vector instruction at offset {start}")
    if opcode == LONG_PREFIX:
        opcode = 0xFC00 + reader.number()
    if opcode not in OPERANDS:
        raise Unreadable(f"unknown opcode {opcode:#x} at offset {start}")
    return Instruction(opcode, OPERANDS[opcode](reader))


def read_expression(reader):
    """Reads the instructions up to the `end` that belongs to no block. Returns all, with that one."""
    found, depth = [], 1
    while depth:
        found.append(read_instruction(reader))
        depth += (found[-1].opcode in (BLOCK, LOOP, IF)) - (found[-1].opcode == END)
    return found
