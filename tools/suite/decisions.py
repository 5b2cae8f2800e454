"""The commands of the suite on which this project decides otherwise, by rules."""
import collections

from wasm.instructions import DATA_DROP, LOADS_AND_STORES, MEMORY_INIT
from wasm.module import DATA_COUNT, Module
from wasm.reader import Unreadable

# How the engine refuses a module.
MALFORMED, INVALID = "refused 1 Malformed", "refused 4 Invalid"
# A rule: its text, the type of the suite's command, how the engine refuses the module, and of which modules it holds.
Decision = collections.namedtuple("Decision", "text type refusal holds")


def instructions_of(module):
    """Yields the instructions of the functions of a module."""
    return (found for body in module.bodies for found in body.instructions)


def has_large_alignment(module):
    """Returns whether a load or a store of a module has an alignment of 32 or more."""
    return any(found.opcode in LOADS_AND_STORES and found.operands[0] >= 32 for found in instructions_of(module))


def lacks_data_count(module):
    """Returns whether a module has `memory.init` or `data.drop`, and no data count."""
    has_count = any(section.kind == DATA_COUNT for section in module.sections)
    return not has_count and any(found.opcode in (MEMORY_INIT, DATA_DROP) for found in instructions_of(module))


ALIGNMENT, DATA_COUNTS = "an alignment of 32 or more is invalid here", "`memory.init` or `data.drop` without a data count is malformed here"
DECISIONS = [
    Decision(ALIGNMENT, "assert_malformed", INVALID, has_large_alignment),
    Decision(DATA_COUNTS, "assert_invalid", MALFORMED, lacks_data_count),
]


def decision_on(command, data, refusal):
    """Returns the text of the rule by which a command fails whose module has these bytes and is refused so. Returns None without a rule."""
    try:
        module = Module(data)
    except Unreadable:
        return None
    found = [rule for rule in DECISIONS if (rule.type, rule.refusal) == (command["type"], refusal) and rule.holds(module)]
    return found[0].text if found else None
