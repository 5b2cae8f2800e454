"""Decides which commands of a command file the engine can run, and which modules it gets for them.

A command is skipped if it is of a text module, or if something that it needs has floats or vectors: a module, a value, or an instance of
such a module. If modules with floats are rewritten, these are skipped instead: calls that can reach a function whose body was replaced,
calls that read a memory in which a skipped call may have stored floats, and invalid modules in which a body would be replaced.
"""
import collections
import os

from suite.floats import has_floats, loses_code, rewritten_functions, without_floats
from suite.reach import FLOAT_STORES, INTEGER_LOADS, Instance, is_rewritten, memories_of, reached
from wasm.module import Module
from wasm.reader import Unreadable, Vectors

FLOATS, VECTORS, TEXT = REASONS = "floats", "vectors", "text modules"
VALUES = {"f32": FLOATS, "f64": FLOATS, "v128": VECTORS}
LINKED = "module", "assert_unlinkable", "assert_uninstantiable"
# A command, why it is skipped or None, and the bytes of its module or None.
Step = collections.namedtuple("Step", "command reason data")


def to_bytes(name):
    """Returns the bytes of a name of a command file."""
    return name.encode("utf-8", "surrogatepass")


def reason_of_values(command):
    """Returns why the arguments of a command or its expected results are skipped, or None."""
    values = command["action"].get("args", []) + (command["expected"] if command["type"] == "assert_return" else [])
    reasons = [VALUES[value["type"]] for value in values if value["type"] in VALUES]
    return reasons[0] if reasons else None


class Planner:
    """Follows the commands of a file, with the instances that they make and their names."""

    def __init__(self, folder, rewrites):
        self.folder, self.rewrites = folder, rewrites
        self.instances, self.named, self.registered = [], {None: None}, {}
        self.unknown = set()  # the owners of the memories in which floats may be missing

    def plan(self, command):
        """Returns the step of a command."""
        if command.get("module_type") == "text":
            return Step(command, TEXT, None)
        if "filename" in command:
            return self.plan_module(command)
        if command["type"] == "register":
            instance = self.named.get(command.get("name"))
            self.registered[to_bytes(command["as"])] = instance
            return Step(command, instance and instance.reason, None)
        return Step(command, self.reason_of_action(command) if "action" in command else None, None)

    def plan_module(self, command):
        """Returns the step of a command that has a module."""
        with open(os.path.join(self.folder, command["filename"]), "rb") as file:
            data = file.read()
        module, reason = None, None
        try:
            module = Module(data)
            reason = FLOATS if has_floats(module) else None
        except Vectors:
            reason = VECTORS
        except Unreadable:
            pass
        rewrites = reason == FLOATS and self.rewrites and command["type"] != "assert_malformed"
        if rewrites and (command["type"] in LINKED or not loses_code(module)):
            data, reason = without_floats(module), None
        if command["type"] in LINKED:
            reason = self.add_instance(command, module, rewritten_functions(module) if rewrites else set(), reason)
        return Step(command, reason, data)

    def add_instance(self, command, module, rewritten, reason):
        """Adds the instance that a command makes of a module. Returns why the command is skipped, or None."""
        sources = [self.registered.get(found.module) for found in module.imports] if module else []
        instance = Instance(module, sources, rewritten, reason)
        self.instances.append(instance)
        missing = [source.reason for source in sources if source and source.reason]
        if missing:
            instance.reason = reason or missing[0]
        elif module and module.start is not None:
            instance.reason = reason or self.reason_of_call(instance, module.start)
        if command["type"] == "module":
            self.named[None] = self.named[command.get("name")] = instance
        return instance.reason

    def reason_of_call(self, instance, function, reason=None, must_trap=False):
        """Returns why a call of a function is skipped: for another reason, or because it may depend on floats. Returns None if it is not.

        If it is skipped, notes which memories it may change. What must trap is taken to read and to change none.
        """
        functions = reached(self.instances, instance, function) if self.rewrites else set()
        if is_rewritten(functions) or (not must_trap and memories_of(functions, INTEGER_LOADS) & self.unknown):
            reason = FLOATS
        if reason and not must_trap:
            self.unknown |= memories_of(functions, FLOAT_STORES)
        return reason

    def reason_of_action(self, command):
        """Returns why a command that calls a function or reads a global is skipped, or None."""
        action, reason = command["action"], reason_of_values(command)
        instance = self.named.get(action.get("module"))
        if instance and instance.reason:
            return instance.reason
        function = instance.exported_function(to_bytes(action["field"])) if instance and action["type"] == "invoke" else None
        if function is None:
            return reason
        return self.reason_of_call(instance, function, reason, command["type"] == "assert_trap")


def plan(commands, folder, rewrites=False):
    """Returns the steps of the commands of a file, whose modules are in a folder."""
    planner = Planner(folder, rewrites)
    return [planner.plan(command) for command in commands]
