"""Names, numbers and sentences, which the facts of the table become in every language."""
import re
import textwrap

from facts.table import TABLE, TableError

WIDTH = 140  # the most characters of a line


def constant(name):
    """Returns the name of a constant: `DivideByZero` and `get_global` become DIVIDE_BY_ZERO and GET_GLOBAL."""
    whole = re.sub(r"(?<=[a-z])Ref\b", "ref", name)
    return re.sub(r"(?<=[a-z])(?=[A-Z])", "_", whole).upper()


def capitalized(text):
    """Returns a text with a capital letter at its head."""
    return text[0].upper() + text[1:]


def first_word(text):
    """Returns the word that a field or a reply begins with."""
    return re.match(r"\w+", text)[0]


def meaning(entry):
    """Returns the meaning of an entry as a sentence."""
    return f"{capitalized(entry.meaning)}."


def refusal_meaning(refusal):
    """Returns the meaning of a refusal, and the place that it tells, as sentences."""
    return meaning(refusal) + (f" The place is {refusal.where}." if refusal.where else "")


def exhaustion_meaning(exhaustion):
    """Returns what runs out and when, as a sentence."""
    return f"{capitalized(exhaustion.text)}: {exhaustion.meaning}."


def most_of(setup):
    """Returns the greatest number that a number of the setup can be."""
    return setup.most or 2**setup.bits - 1


def bounds(setup):
    """Returns the meaning of a number of the setup, with its range if that is not all of its bits."""
    return setup.meaning + (f": {setup.least:,} to {setup.most:,}" if setup.most else "")


def joined(items):
    """Returns a list in words: `a, b and c`."""
    return " and ".join([", ".join(items[:-1]), items[-1]] if len(items) > 1 else items)


def ranges(numbers):
    """Returns numbers in words, in which three or more in a row are a range: `1 to 4, 6 and 7`."""
    rows = []
    for number in numbers:
        if rows and rows[-1][-1] == number - 1:
            rows[-1].append(number)
        else:
            rows.append([number])
    return joined([text for row in rows for text in ([f"{row[0]} to {row[-1]}"] if len(row) > 2 else map(str, row))])


def by_name(entries, name):
    """Returns the entry of this name. Raises TableError if there is none."""
    for entry in entries:
        if entry.name == name:
            return entry
    raise TableError(f"{TABLE}: expected an entry {name}, found none")


def packed(items, width):
    """Returns items with blanks between them, in as few lines of this width as hold them."""
    lines = [""]
    for item in items:
        if lines[-1] and len(lines[-1]) + 1 + len(item) > width:
            lines.append("")
        lines[-1] = f"{lines[-1]} {item}".lstrip()
    return lines


def wrapped(text, first, others, width):
    """Returns a text in lines of this width. The first line begins with `first`, and each other line with `others`."""
    return textwrap.wrap(text, width, initial_indent=first, subsequent_indent=others)
