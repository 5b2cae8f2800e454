"""Makes the inputs of the programs. Every run makes the same bytes, on every machine: the numbers come from a generator in this file."""
import json

LARGE = 1_048_576
MEDIUM = 50_000
SIZES = {"small": 200, "medium": MEDIUM, "large": LARGE}


class Numbers:
    """A generator of numbers: xorshift with 64 bits."""

    def __init__(self, seed):
        self.state = seed

    def below(self, bound):
        """Returns the next number, which is below a bound."""
        self.state ^= self.state << 13 & 0xFFFFFFFFFFFFFFFF
        self.state ^= self.state >> 7
        self.state ^= self.state << 17 & 0xFFFFFFFFFFFFFFFF
        return (self.state >> 11) % bound


def words(numbers, count):
    """Returns a list of words, of which the first are short and frequent ones."""
    return ["".join(chr(97 + numbers.below(26)) for _ in range(2 + numbers.below(3 + k // 40))) for k in range(count)]


def text(size):
    """Returns lines of words, in which some words are frequent."""
    numbers, out, length = Numbers(1), [], 0
    known = words(numbers, 1_500)
    while length < size:
        line = " ".join(known[numbers.below(1 + numbers.below(len(known)))] for _ in range(3 + numbers.below(12))) + "\n"
        out.append(line)
        length += len(line)
    return "".join(out).encode()[:size]


def lines(size):
    """Returns long lines of words, none of which is empty."""
    found = text(size).replace(b"\n", b" ")
    return b"\n".join(found[at : at + 1_200] for at in range(0, len(found), 1_200)) + b"\n"


def pixels(size):
    """Returns a picture: a slope with some noise."""
    numbers = Numbers(2)
    return bytes((k // 96 + (k >> 12) + (numbers.below(24) if k % 5 == 0 else 0)) & 0xFF for k in range(size))


TRIANGLES = ((4_000, 57), (2_500, 23), (900, 7))  # heights and periods


def samples(size):
    """Returns samples of 16 bits: three triangles that change in height, with some noise."""
    numbers, out = Numbers(3), bytearray()
    for k in range(size // 2):
        value = sum(height * (abs(k % period - period // 2) * 4 - period) // period for height, period in TRIANGLES)
        value = value * (k // 2_000 % 5 + 1) // 5 + numbers.below(200)
        out += (value & 0xFFFF).to_bytes(2, "little")
    return bytes(out)


def json_text(size):
    """Returns a text of JSON: a list of objects."""
    numbers, items, length = Numbers(4), [], 2
    known = words(numbers, 300)
    while length < size - 200:
        item = {
            "number": numbers.below(1_000_000),
            known[numbers.below(300)]: [known[numbers.below(300)] for _ in range(numbers.below(5))],
            "is it": [True, False, None][numbers.below(3)],
            "text": " ".join(known[numbers.below(300)] for _ in range(numbers.below(9))) + ' "\\',
        }
        items.append(json.dumps(item))
        length += len(items[-1]) + 2
    found = f"[{', '.join(items)}]"
    return (found + " " * (size - len(found))).encode()


def pattern(size):
    """Returns a regular expression, and lines of words in which it is found."""
    expression = rb"\b([a-z])(?=[a-z]*\1)(\w{2,5})(?:tr|qu|[xyz]{1,2}|(an|en|on))\w*\b(?!\s+\1)"
    return expression + b"\n" + text(size - len(expression) - 1)


SCRIPT = b"""
local counts, words = {}, {}
for word in text:gmatch("%a+") do
  if not counts[word] then words[#words + 1] = word end
  counts[word] = (counts[word] or 0) + 1
end
table.sort(words, function(a, b) return counts[a] > counts[b] or (counts[a] == counts[b] and a < b) end)
for rank = 1, #words < 500 and #words or 500 do
  print(string.format("%4d %-12s %6d", rank, words[rank], counts[words[rank]]))
end
local function fibonacci(n) return n < 2 and n or fibonacci(n - 1) + fibonacci(n - 2) end
local primes, isComposite = {}, {}
for n = 2, #text / 20 do
  if not isComposite[n] then
    primes[#primes + 1] = n
    for multiple = n * n, #text / 20, n do isComposite[multiple] = true end
  end
end
print(#words, #primes, fibonacci(18), 7 ^ 20, -7 / 2, text:upper():sub(1, 40):reverse())
"""


def script(size):
    """Returns a script of Lua that counts the words of a text in it, and computes some numbers."""
    start, end = b"local text = [==[", b"]==]" + SCRIPT
    return start + text(max(size - len(start) - len(end), 200)) + end


QUERIES = """
CREATE INDEX by_word ON uses (word);
SELECT word, count(*), sum(times), min(line), max(line) FROM uses GROUP BY word ORDER BY 3 DESC, 1 LIMIT 40;
SELECT a.word, b.word, count(*) FROM uses a JOIN uses b ON b.line = a.line + 1 WHERE a.word LIKE 'q%'
  GROUP BY 1, 2 ORDER BY 3 DESC, 1, 2 LIMIT 20;
UPDATE uses SET times = times * 3 + 1 WHERE line % 7 = 0;
DELETE FROM uses WHERE word IN (SELECT word FROM uses GROUP BY word HAVING count(*) = 1);
WITH RECURSIVE n(i) AS (SELECT 1 UNION ALL SELECT i + 1 FROM n WHERE i < 2000) SELECT sum(i * i), hex(count(*)), max(i) FROM n;
SELECT count(*), sum(times), upper(max(word)), length(group_concat(word)) FROM uses;
PRAGMA integrity_check;
"""


def sql(size):
    """Returns a script of SQL that fills a table, and asks for what is in it."""
    numbers, known = Numbers(5), words(Numbers(1), 800)
    out, line = ["CREATE TABLE uses (line INTEGER PRIMARY KEY, word TEXT NOT NULL, times INTEGER);\n"], 0
    left = size - len(QUERIES) - len(out[0])
    while left > 80 or line < 5:
        line += 1
        word = known[numbers.below(1 + numbers.below(len(known)))]
        out.append(f"INSERT INTO uses VALUES ({line}, '{word}', {numbers.below(1_000)});\n")
        left -= len(out[-1])
    return ("".join(out) + " " * left + QUERIES).encode()


KINDS = {"sql": sql, "script": script, "text": text, "lines": lines, "pixels": pixels, "samples": samples, "json": json_text, "pattern": pattern}


def inputs_of(program):
    """Returns the inputs of a program's first mode, by their names."""
    return {name: KINDS[program.input](size) for name, size in SIZES.items()}


def cut(data):
    """Returns the first half of an input."""
    return data[: len(data) // 2]


def damaged(data):
    """Returns an input in which 64 bytes are other ones."""
    middle = len(data) // 2
    return data[:middle] + b"\xff" * 64 + data[middle + 64 :]


SPOILERS = {"cut": cut, "damaged": damaged}


def bad_inputs_of(program, data):
    """Returns inputs that a program refuses, by their names. Some are made of a good one."""
    found = {name: SPOILERS[name](data) for name in program.spoilt}
    return {**found, **{str(number): text.encode() for number, text in enumerate(program.bad, 1)}}
