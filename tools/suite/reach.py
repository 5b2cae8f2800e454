"""Finds which functions a call can reach, and so whether its outcome depends on floats."""
import collections

from wasm.instructions import CALL, CALL_INDIRECT, RETURN_CALL, RETURN_CALL_INDIRECT
from wasm.module import FUNCTION, MEMORY

FLOAT_STORES = {0x38, 0x39}
INTEGER_LOADS = {0x28, 0x29, *range(0x2C, 0x36)}


class Instance:
    """An instance of a module. `module` is None if its bytes cannot be read.

    `sources` has the instance from which each import comes, or None. `rewritten` has the indices of the functions whose bodies were
    rewritten. `reason` is why commands that need the instance are skipped, or None.
    """

    def __init__(self, module, sources, rewritten, reason):
        self.module, self.sources, self.rewritten, self.reason = module, sources, rewritten, reason
        self.referenced = collections.defaultdict(list)  # the functions to which there may be references, by their types
        for index in module.referenced if module else []:
            self.referenced[module.function_types[index]].append((self, index))

    def exported_function(self, name):
        """Returns the index of an exported function, or None."""
        exports = self.module.exports if self.module else []
        return next((found.index for found in exports if found.kind == FUNCTION and found.name == name), None)

    def origin(self, index):
        """Returns the instance that defines a function, and the index there, or None if it is unknown."""
        if index >= len(self.module.imported_functions):
            return self, index
        found, source = [pair for pair in zip(self.module.imports, self.sources) if pair[0].kind == FUNCTION][index]
        exported = source.exported_function(found.name) if source else None
        return None if exported is None else source.origin(exported)

    def memory_owner(self):
        """Returns the instance that defines the memory of this one. It may have none."""
        source = next((source for found, source in zip(self.module.imports, self.sources) if found.kind == MEMORY), None)
        return source.memory_owner() if source else self

    def body(self, index):
        """Returns the instructions of a function of the instance's own."""
        return self.module.bodies[index - len(self.module.imported_functions)].instructions


def called_by(instances, instance, index):
    """Returns the functions that a function of an instance's own may call, each as an instance and an index."""
    found = []
    for each in instance.body(index):
        if each.opcode in (CALL, RETURN_CALL):
            found.append((instance, each.operands[0]))
        elif each.opcode in (CALL_INDIRECT, RETURN_CALL_INDIRECT):
            wanted = instance.module.types[each.operands[0]]
            found += [function for other in instances if not other.reason for function in other.referenced[wanted]]
    return found


def reached(instances, instance, index):
    """Returns the functions that a call of a function can reach, with that one, each as the instance that defines it and an index."""
    waiting, found = [(instance, index)], set()
    while waiting:
        origin = Instance.origin(*waiting.pop())
        if origin is not None and origin not in found:
            found.add(origin)
            waiting += called_by(instances, *origin)
    return found


def is_rewritten(functions):
    """Returns whether the body of one of these functions was replaced."""
    return any(index in instance.rewritten for instance, index in functions)


def memories_of(functions, opcodes):
    """Returns the owners of the memories that these functions access by instructions with these opcodes."""
    return {instance.memory_owner() for instance, index in functions if any(each.opcode in opcodes for each in instance.body(index))}
