"""What is written of the table in the C library."""
from facts.words import WIDTH, bounds, by_name, constant, packed, wrapped

HEADER, SOURCE = "bindings/c/tegvurn.h", "bindings/c/tegvurn.c"


def with_comments(codes, comments, indent):
    """Returns lines of code, which will be indented, with comments in one column."""
    column = max(map(len, codes)) + 1
    found = []
    for code, comment in zip(codes, comments):
        found += wrapped(comment, f"{code:{column}}/* ", " " * (column + len("/* ")), WIDTH - indent - len(" */"))
        found[-1] += " */"
    return found


def enum(kind, entries, comment=lambda entry: entry.meaning):
    """Returns the constants of an enum of the header, whose names begin with the name of the enum."""
    codes = [f"TEGVURN_{kind}_{constant(entry.name)} = {entry.number}," for entry in entries]
    codes[-1] = codes[-1].rstrip(",")  # C++98 allows no comma there
    return with_comments(codes, map(comment, entries), 2)


def refusal_comment(refusal):
    """Returns the meaning of a refusal, and the place that it tells."""
    return refusal.meaning + (f"; the place is {refusal.where}" if refusal.where else "")


def config(table):
    """Returns the members of the configuration."""
    codes = [f"uint{setup.bits}_t {setup.name};" for setup in table.setup]
    return with_comments(codes, [f"{bounds(setup)}; by default {setup.default:,}" for setup in table.setup], 2)


def default_config(table):
    """Returns the initializer of a configuration with the defaults."""
    return [f"#define TEGVURN_DEFAULT_CONFIG {{{', '.join(str(setup.default) for setup in table.setup)}}}"]


def trap_code(table):
    """Returns the code of the trap for wrong results."""
    code = by_name(table.codes, "WrongResults")
    return [f"/* The code of the trap if {code.meaning}. */", f"#define TEGVURN_{constant(code.name)} 0x{code.number:X}u"]


def messages(**entries):
    """Returns constants for kinds of messages. Their names begin with the names of these arguments."""
    items = [f"{constant(kind)}_{constant(entry.name)} = {entry.number}," for kind in entries for entry in entries[kind]]
    return packed(items, WIDTH - 2)


def wordings(entries, text=lambda entry: entry.text):
    """Returns the name and the text of each number. A text that tells a place is empty, because the proved code writes it."""
    texts = ["" if "{}" in text(entry) else text(entry) for entry in entries]
    return packed([f'[{entry.number}] = {{"{entry.name}", "{words}"}},' for entry, words in zip(entries, texts)], WIDTH - 4)


def additions(table):
    """Returns what is added to texts. A code is an unsigned int."""
    codes = [f'#define ADDED_{constant(entry.name)} "{entry.text.replace("{}", "%u")}"' for entry in table.additions]
    return with_comments(codes, [f"if {entry.meaning}" for entry in table.additions], 0)


def own_numbers(table):
    """Returns the numbers that the C side needs of its own."""
    no_memory, most_bytes = by_name(table.ends, "OutOfMemory").number, by_name(table.limits, "module_bytes").most
    codes = [f"#define NO_MEMORY {no_memory}", f"#define MOST_BYTES ((size_t){most_bytes})"]
    return with_comments(codes, ["what tegvurn_serve returns if memory for a reply ran out", "the most bytes of a module"], 0)


def bad_pointer(table):
    """Returns the members of the end of a call without an embedding."""
    status = by_name(table.statuses, "BadPointer")
    return [f'.status = TEGVURN_STATUS_{constant(status.name)}, .name = "{status.name}", .text = "{status.text}",']


# For each file, the blocks with their names.
BLOCKS = {
    HEADER: {
        "types": lambda table: enum("TYPE", table.types),
        "statuses": lambda table: enum("STATUS", table.statuses),
        "refusals": lambda table: enum("REFUSAL", table.refusals, refusal_comment),
        "traps": lambda table: enum("TRAP", table.traps),
        "exhaustions": lambda table: enum("EXHAUSTION", table.exhaustions),
        "places": lambda table: enum("PLACE", table.places),
        "kinds": lambda table: enum("KIND", table.kinds),
        "trap_code": trap_code,
        "config": config,
        "default_config": default_config,
    },
    SOURCE: {
        "own_numbers": own_numbers,
        "orders": lambda table: messages(order=table.orders),
        "replies": lambda table: messages(reply=table.replies, request=table.requests),
        "answers": lambda table: messages(answer=table.answers),
        "statuses": lambda table: wordings(table.statuses),
        "refusals": lambda table: wordings(table.refusals),
        "traps": lambda table: wordings(table.traps),
        "exhaustions": lambda table: wordings(table.exhaustions, lambda entry: f"out of {entry.text}"),
        "additions": additions,
        "bad_pointer": bad_pointer,
    },
}
