"""Makes the module that rewritten modules get as `spectest`.

The one of `wasmrun` has no floats. This one imports all that it has and exports it again, with the functions and globals of the suite's
`spectest` that have floats.
"""
from modules import CODE, EXPORTS, FUNCTIONS, TYPES, module, sized, vector
from suite.floats import without_floats
from wasm.instructions import F32, F32_CONST, F64, F64_CONST, FUNCREF, I32, I64
from wasm.module import FUNCTION, GLOBAL, GLOBALS, IMPORTS, MEMORY, TABLE, Module

# The functions and globals by their indices. Those of the program's own come first, and have no floats.
PRINTS = {"print": [], "print_i32": [I32], "print_i64": [I64], "print_f32": [F32], "print_f64": [F64]}
PRINTS.update({"print_i32_f32": [I32, F32], "print_f64_f64": [F64, F64]})
PROGRAM_PRINTS = 3
PROGRAM_GLOBALS = {"global_i32": I32, "global_i64": I64}
FLOAT_GLOBALS = {"global_f32": (F32, F32_CONST, 4), "global_f64": (F64, F64_CONST, 8)}


def name(text):
    """Returns the encoding of a name."""
    return sized(text.encode())


def spectest_imports():
    """Returns the encodings of the imports from the program's module."""
    types = [("memory", bytes([MEMORY, 1, 1, 2])), ("table", bytes([TABLE, FUNCREF, 1, 10, 20]))]
    types += [(each, bytes([GLOBAL, value, 0])) for each, value in PROGRAM_GLOBALS.items()]
    types += [(each, bytes([FUNCTION, k])) for k, each in enumerate(list(PRINTS)[:PROGRAM_PRINTS])]
    return [name("spectest") + name(each) + type_ for each, type_ in types]


def spectest():
    """Returns the bytes of the module."""
    kinds = [(MEMORY, ["memory"]), (TABLE, ["table"]), (GLOBAL, [*PROGRAM_GLOBALS, *FLOAT_GLOBALS]), (FUNCTION, list(PRINTS))]
    own = range(PROGRAM_PRINTS, len(PRINTS))
    sections = {
        TYPES: vector([b"\x60" + sized(bytes(values)) + sized(b"") for values in PRINTS.values()]),
        IMPORTS: vector(spectest_imports()),
        FUNCTIONS: vector([bytes([k]) for k in own]),
        GLOBALS: vector([bytes([value, 0, constant]) + bytes(size) + b"\x0b" for value, constant, size in FLOAT_GLOBALS.values()]),
        EXPORTS: vector([name(each) + bytes([kind, k]) for kind, names in kinds for k, each in enumerate(names)]),
        CODE: vector([sized(b"\0\x0b") for _ in own]),
    }
    return without_floats(Module(module(sections)))
