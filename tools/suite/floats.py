"""Finds what has floating point in a module, and rewrites the module without it.

In a rewritten module, f32 is externref and f64 is funcref, so types that differ still do. Their constants are null references. What moves
floats only works as before. The body of a function that computes with floats is `unreachable`: if it has a load, a store or an operator of
a floating-point type, or if it may select between floats by `select` without a type, which takes no references.
"""
from modules import sized, vector
from wasm.instructions import BLOCK, CALL, CALL_INDIRECT, EXTERNREF, F32, F64, FUNCREF, GLOBAL_GET, GLOBAL_SET, IF, LOOP, REF_NULL
from wasm.instructions import RETURN_CALL, RETURN_CALL_INDIRECT, SELECT
from wasm.module import CODE, HEADER, item_at

INTEGER_OPERATORS = {*range(0x45, 0x5B), *range(0x67, 0x8B), 0xA7, 0xAC, 0xAD, *range(0xC0, 0xC5)}
FLOAT_OPERATORS = (set(range(0x45, 0xC5)) - INTEGER_OPERATORS) | set(range(0xFC00, 0xFC08))
FLOAT_ACCESSES = {0x2A, 0x2B, 0x38, 0x39}
IN_PLACE_OF = {F32: EXTERNREF, F64: FUNCREF}
UNREACHABLE = b"\0\0\x0b"  # a body without locals


def computes(instructions):
    """Returns whether a load, a store or an operator of a floating-point type is among instructions."""
    return any(found.opcode in FLOAT_OPERATORS or found.opcode in FLOAT_ACCESSES for found in instructions)


def has_floats(module):
    """Returns whether a module has floats."""
    lists = module.constants + [body.instructions for body in module.bodies]
    return any(section.floats for section in module.sections) or any(body.floats for body in module.bodies) or any(map(computes, lists))


def is_float_type(found):
    """Returns whether a function type has floats."""
    return found is not None and any(value in IN_PLACE_OF for value in found.parameters + found.results)


def names_floats(module, found):
    """Returns whether an instruction names a type, a function or a global that has floats."""
    opcode, operands = found
    if opcode in (BLOCK, LOOP, IF):
        return operands[0] is not None and is_float_type(item_at(module.types, operands[0]))
    if opcode in (CALL, RETURN_CALL):
        return is_float_type(item_at(module.function_types, operands[0]))
    if opcode in (CALL_INDIRECT, RETURN_CALL_INDIRECT):
        return is_float_type(item_at(module.types, operands[0]))
    return opcode in (GLOBAL_GET, GLOBAL_SET) and item_at(module.global_types, operands[0]) in IN_PLACE_OF


def may_select_floats(module, index, body):
    """Returns whether a function has a `select` without a type, and floats."""
    if all(found.opcode != SELECT for found in body.instructions):
        return False
    type_ = item_at(module.function_types, index)
    return bool(body.floats) or is_float_type(type_) or any(names_floats(module, found) for found in body.instructions)


def rewritten_functions(module):
    """Returns the indices of the functions whose bodies the rewriting replaces."""
    bodies = enumerate(module.bodies, len(module.imported_functions))
    return {index for index, body in bodies if computes(body.instructions) or may_select_floats(module, index, body)}


def loses_code(module):
    """Returns whether the rewriting replaces bodies, or leaves an operator of floats in a constant expression."""
    return bool(rewritten_functions(module)) or any(map(computes, module.constants))


def replaced(data, floats):
    """Returns bytes with references in the places of floats."""
    out, at = b"", 0
    for place in floats:
        reference = bytes([IN_PLACE_OF[place.value]])
        out += data[at : place.start] + (bytes([REF_NULL]) if place.is_constant else b"") + reference
        at = place.end
    return out + data[at:]


def rewritten_code(module):
    """Returns the content of the code section without floats."""
    bodies, without = enumerate(module.bodies, len(module.imported_functions)), rewritten_functions(module)
    return vector([sized(UNREACHABLE if index in without else replaced(body.data, body.floats)) for index, body in bodies])


def without_floats(module):
    """Returns the bytes of a module, rewritten without floats."""
    contents = [rewritten_code(module) if kind == CODE else replaced(content, floats) for kind, content, floats in module.sections]
    return HEADER + b"".join(bytes([section.kind]) + sized(content) for section, content in zip(module.sections, contents))
