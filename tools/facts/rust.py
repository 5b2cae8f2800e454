"""What is written of the table in the Rust crate."""
from facts.words import WIDTH, bounds, by_name, capitalized, constant, exhaustion_meaning, meaning, refusal_meaning, wrapped

FOLDER = "bindings/rust/src/"


def documented(entries, code, words):
    """Returns lines of code, each after its documentation."""
    return [line for entry in entries for line in [*wrapped(words(entry), "/// ", "/// ", WIDTH - 4), code(entry)]]


def variants(entries, words=meaning):
    """Returns the variants of an enum, with their numbers."""
    return documented(entries, lambda entry: f"{entry.name} = {entry.number},", words)


def arms(entries, pattern, value):
    """Returns the arms of a match."""
    return [f"{pattern(entry)} => {value(entry)}," for entry in entries]


def number(entry):
    """Returns the number of an entry as a pattern or a value."""
    return str(entry.number)


def text(entry):
    """Returns the text of an entry as a literal."""
    return f'"{entry.text}"'


def of(name):
    """Returns what returns the variant of an enum of this name for an entry."""
    return lambda entry: f"{name}::{entry.name}"


def trap(code):
    """Returns what returns a trap for an entry, with this in the place of a code."""
    return lambda entry: f"Trap::{entry.name}" + (f"({code})" if entry.name == "Host" else "")


def place(entry):
    """Returns the variant for a kind of places, without its field."""
    return capitalized(entry.name)


def some(places):
    """Returns the kinds of places except that of no place."""
    return [place for place in places if place.number]


def texts(table):
    """Returns the texts of the refusals that the crate itself reports."""
    found = [by_name(table.refusals, name) for name in ("WrongKind", "OutOfMemory")]
    return [f'pub(crate) const {constant(refusal.name)}: &str = "{refusal.text}";' for refusal in found]


def code_text(table):
    """Returns the arm that writes what a code adds to the text of a trap."""
    words = by_name(table.additions, "Code").text.replace("{}", "{code}")
    return [f'Trap::Host(code) => write!(f, "{words}"),']


def additions(table):
    """Returns what a link adds to texts."""
    found = [by_name(table.additions, name) for name in ("Start", "StartOrSegment")]
    return [f'const {constant(entry.name)}: &str = "{entry.text}";' for entry in found]


def fields(table):
    """Returns the fields of the bounds of a store."""
    words = lambda setup: f"{capitalized(bounds(setup))}. The default is {setup.default:,}."  # noqa: E731
    return documented(table.setup, lambda setup: f"pub {setup.name}: u{setup.bits},", words)


def numbers(prefix, entries, *names):
    """Returns constants for the numbers of these entries."""
    return [f"const {prefix}{constant(name)}: u32 = {by_name(entries, name).number};" for name in names]


# For each file, the blocks with their names.
BLOCKS = {
    FOLDER + "error.rs": {
        "causes": lambda table: variants(table.refusals, refusal_meaning),
        "cause_of_number": lambda table: arms(table.refusals, number, of("Cause")),
        "texts": texts,
        "places": lambda table: documented(some(table.places), lambda entry: f"{place(entry)}(u64),", meaning),
        "place_of_number": lambda table: arms(some(table.places), number, lambda entry: f"Place::{place(entry)}(at)"),
        "traps": lambda table: documented(table.traps, lambda entry: trap("u32")(entry).replace("Trap::", "") + ",", meaning),
        "trap_of_number": lambda table: arms(table.traps, number, trap("code")),
        "trap_numbers": lambda table: arms(table.traps, trap("_"), number),
        "trap_texts": lambda table: arms(table.traps, trap("_"), text),
        "code_text": code_text,
        "additions": additions,
        "exhaustions": lambda table: variants(table.exhaustions, exhaustion_meaning),
        "exhaustion_of_number": lambda table: arms(table.exhaustions, number, of("Exhaustion")),
        "exhaustion_texts": lambda table: arms(table.exhaustions, of("Exhaustion"), text),
    },
    FOLDER + "types.rs": {
        "types": lambda table: variants(table.types),
        "type_of_number": lambda table: arms(table.types, number, of("ValType")),
        "type_texts": lambda table: arms(table.types, of("ValType"), text),
    },
    FOLDER + "linker.rs": {
        "bounds": fields,
        "defaults": lambda table: [f"{setup.name}: {setup.default:_}," for setup in table.setup],
    },
    FOLDER + "embedding.rs": {
        "statuses": lambda table: numbers("", table.statuses, "Done", "Refused", "Trap", "Exhausted"),
        "kinds": lambda table: numbers("KIND_", table.kinds, "Function", "Table", "Memory", "Global"),
    },
}
