#!/usr/bin/env python3
"""Tests `wasmserve` with the client of client.py, and with raw bytes: `python3 test_client.py [--tried] [WASMSERVE]`.

The variable WASMSERVE can name the program too. Without a name, it is the one that the gate has built. With `--tried`, it is one that
`rt try` has built: such a program reserves much address space, so it runs without limits of memory, and the tests that need them are
skipped by their names. The tests print how many passed and failed. The status is 1 if one failed.
"""
import argparse
import contextlib
import copy
import os
import pickle
import resource
import signal
import struct
import subprocess
import sys
import tempfile
import threading
import time

sys.dont_write_bytecode = True

import client  # noqa: E402
import pipes  # noqa: E402
import rows  # noqa: E402


def read_arguments():
    """Returns the path of the program, and whether `rt try` has built it."""
    parser = argparse.ArgumentParser(description=__doc__, formatter_class=argparse.RawDescriptionHelpFormatter)
    parser.add_argument("--tried", action="store_true", help="run without limits of memory")
    parser.add_argument("program", metavar="WASMSERVE", nargs="?", default=pipes.program())
    words = parser.parse_args()
    return words.program, words.tried


PROGRAM, TRIED = read_arguments()
MODULES = rows.read_rows()[0]
SETUP = (1_000_000, 100, 16, 100)
WRONG = ("trap", 9, 2**32 - 1)
GIBIBYTE = 2**30


def encode(field):
    """Returns the encoding of a number, a string as a text, types or a value. Returns bytes as they are."""
    for type_, kind in ((int, "number"), (str, "text"), (list, "types"), (tuple, "value")):
        if isinstance(field, type_):
            return client.ENCODERS[kind](field)
    return field


def message(kind, *fields):
    """Returns the encoding of a message."""
    data = b"".join(map(encode, fields))
    return encode(len(data)) + encode(kind) + data


def order(name, *fields):
    """Returns the encoding of an order."""
    return message(client.NUMBERS[name], *fields)


END, LEFT, EXPLAIN = order("end"), order("fuel_left"), order("explain")
BEGIN = order("begin", *SETUP)
DEFINE_COUNT = order("define", "env", "count", [], ["i32"])
DEFINED = b"".join(order("define", host.module, host.name, host.parameters, host.results) for host in rows.StandardHosts().all())
# The orders that begin an embedding with the standard host functions, and their replies.
BEGUN, ANSWERED = DEFINED + BEGIN, [("done",)] * 9
LEFT_AT_FIRST = ("number", SETUP[0])


def read_reply(name, data):
    """Returns a reply or a request for a host function. A refusal is without its text."""
    return client.read_reply(name, data)[: 4 if name == "refused" else None]


def read_replies(data):
    """Returns the replies that bytes encode. Refusals are without their texts."""
    replies, at = [], 0
    while at < len(data):
        size, kind = struct.unpack_from("<QQ", data, at)
        replies.append(read_reply(client.REPLIES[kind], data[at + 16 : at + 16 + size]))
        at += 16 + size
    return replies


def converse(data, memory):
    """Runs the program over these bytes, with a limit of memory in bytes unless `rt try` has built it.

    Returns the replies, standard error and the status.
    """
    bound = lambda: TRIED or resource.setrlimit(resource.RLIMIT_AS, (memory, memory))  # noqa: E731
    ran = subprocess.run([PROGRAM], input=data, capture_output=True, timeout=60, preexec_fn=bound)
    return read_replies(ran.stdout), ran.stderr, ran.returncode


def check(tests, name, data, replies, status, memory=GIBIBYTE):
    """Runs a test: the program gives these replies and this status for these bytes, and writes nothing to standard error."""
    tests.equal(converse(data, memory), (replies, b"", status), name)


def test_rows(tests):
    """The rows pass over pipes."""
    rows.Rows(lambda *args: pipes.begin(client.Client(PROGRAM), *args)).run(tests)


def test_ends(tests):
    """The input ends, or the server is told to end. The status tells which."""
    check(tests, "no input", b"", [], 1)
    check(tests, "told to end", END, [("done",)], 0)
    check(tests, "nothing is read behind the end", END + b"\1\2\3", [("done",)], 0)
    check(tests, "told to end behind other orders", BEGUN + LEFT + END, ANSWERED + [LEFT_AT_FIRST, ("done",)], 0)
    check(tests, "the input ends behind an order", BEGUN + LEFT, ANSWERED + [LEFT_AT_FIRST], 1)
    for size in (1, 8, 15):
        check(tests, f"{size} bytes of a message", BEGUN + LEFT[:size], ANSWERED, 2)
    for size in (16, 17, len(BEGIN) - 1):
        check(tests, f"{size} bytes of a message with fields", BEGIN[:size], [], 2)
    check(tests, "a huge length", encode(2**62) + encode(1) + b"abc", [], 2)
    check(tests, "the greatest length", encode(2**64 - 1) + encode(1) + b"abc", [], 2)
    check(tests, "a huge length behind the beginning", BEGUN + encode(2**62) + encode(1) + b"abc", ANSWERED, 2)


def test_times(tests):
    """Orders that are sent out of turn get the reply `not now`."""
    late = [order("load", b""), order("link", 0), order("register", 0, b"m"), order("call", 0, "f"), order("get_global", 0, b"g")]
    late += [order("set_fuel", 1), LEFT, order("exports", 0), order("export", 0, b"f"), order("file", "a", b""), order("script", b"{}")]
    late += [order("quota_left"), order("module_imports", 0), order("module_exports", 0), order("explain")]
    not_now = [("not_now",)] * len(late)
    check(tests, "orders before `begin`", b"".join(late) + BEGUN + LEFT + END, not_now + ANSWERED + [LEFT_AT_FIRST, ("done",)], 0)
    early = [BEGIN, DEFINE_COUNT, order("begin", 1, 0, 1, 1), order("quota", 0)]
    given = ANSWERED + [("not_now",)] * 4 + [LEFT_AT_FIRST, ("done",)]
    check(tests, "orders behind `begin`", BEGUN + b"".join(early) + LEFT + END, given, 0)
    check(tests, "an order that is not spelt, before `begin`", order("link") + BEGIN + END, [("not_spelt",), ("done",), ("done",)], 0)


def test_setups(tests):
    """A `begin` that is refused for its host functions drops them, and one whose numbers are out of range changes nothing."""
    gives_function, refused = order("define", "env", "f", [], ["funcref"]), ("refused", 64, 0, 0)
    count = order("load", MODULES["missing_second"]) + order("link", 0) + END
    missing, done = [("number", 0), ("refused", 6, 2, 0), ("done",)], ("done",)
    kept = [("number", 0), ("refused", 6, 2, 1), ("done",)]
    for setup in ((1, 0, 1, 1), (1, 65_536, 1, 1), (1, 2**32 + 1, 1, 1), (1, 1, 2**32 + 1, 1), (1, 1, 1, 2**32 + 1), (2**64 - 1,) * 4):
        check(tests, f"a setup of {setup}", DEFINE_COUNT + order("begin", *setup) + BEGIN + count, [done, refused, done] + kept, 0)
    given = [done, done, ("refused", 14, 0, 0), done] + missing
    check(tests, "a function as a result", DEFINE_COUNT + gives_function + BEGIN + BEGIN + count, given, 0)
    given = [done, done, ("refused", 12, 0, 0), done, done] + kept
    check(tests, "a name twice", DEFINE_COUNT + DEFINE_COUNT + BEGIN + DEFINE_COUNT + BEGIN + count, given, 0)


# Kinds of messages, each with fields that encode no order.
UNSPELT = [
    (14,), (14, 0, b"a"), (2**32,), (2**64 - 1,), (0, 0), (0, b"a"),
    (2,), (2, bytes(7)), (2, bytes(9)), (2, 0, 0),
    (3,), (3, bytes(7)), (3, 0, b"\xff"), (3, 0, b"\xc0\x80"), (3, 0, b"\xed\xa0\x80"), (3, 0, b"\xf4\x90\x80\x80"), (3, 0, b"a\xe2\x82"),
    (4,), (4, 0), (4, 0, bytes(7)), (4, 0, 1), (4, 0, 2, b"f"), (4, 0, 2**64 - 1, b"f"), (4, 0, 2**61, b"f"), (4, 0, 1, b"\xff"),
    (4, 0, "f", 127), (4, 0, "f", 127, bytes(7)), (4, 0, "f", 127, 2**32), (4, 0, "f", 125, 0), (4, 0, "f", 0, 0),
    (4, 0, "f", 2**32 + 127, 0), (4, 0, "f", 111, 2**32 + 1), (4, 0, "f", 112, 2**64 - 1), (4, 0, "f", 127, 1, 127),
    (5,), (5, 0, b"\xff"), (6,), (6, 0, 0), (6, bytes(4)), (7, 0), (8,), (8, 0, b"a"),
    (9,), (9, 1), (9, 1, b"\x80"), (9, 2, b"a"), (9, 2**64 - 1),
    (11,), (11, "m"), (11, "m", "n"), (11, "m", "n", 0), (11, "m", "n", 1, 0), (11, "m", "n", 1, 125, 0), (11, "m", "n", 2**61, 0),
    (11, "m", "n", 2**64 - 1, 127), (11, "m", "n", [], [], b"a"), (11, "m", "n", [], [], 127), (11, 1, b"\xff", "n", [], []),
    (11, "m", 1, b"\xff", [], []),
    (12,), (12, 1, 1, 1), (12, 1, 1, 1, 1, 1), (12, bytes(31)),
    (13,), (13, bytes(7)), (13, 0, b"\xff"), (13, 0, b"\xc0\x80"), (13, 0, b"a\xe2\x82"),
    (14, bytes(7)), (14, 0, 0), (15, 0), (15, b"a"), (16,), (16, 0, 0), (17,), (17, bytes(7)), (19,), (18, 0),
]


def test_spelling(tests):
    """Messages that encode no order change nothing, and the conversation continues."""
    given = [("not_spelt",)] + ANSWERED + [("not_spelt",), LEFT_AT_FIRST, ("done",)]
    for fields in UNSPELT:
        check(tests, f"not spelt: {fields}", message(*fields) + BEGUN + message(*fields) + LEFT + END, given, 0)


# The orders up to a call of `count`, and up to one of `log` with the memory of `lends`, each with the replies.
COUNTING = BEGUN + order("load", MODULES["hosts"]) + order("link", 0) + order("call", 0, "count")
COUNTED = ANSWERED + [("number", 0), ("number", 0), ("call", 0, 0)]
LOGGING = BEGUN + order("load", MODULES["lends"]) + order("link", 0) + order("call", 0, "log", ("i32", 8), ("i32", 5))
LOGGED = ANSWERED + [("number", 0), ("number", 0), ("call", 3, 65_536, ("i32", 8), ("i32", 5))]
RESULTS, TRAPPED, READ, PUT = client.RESULTS, client.TRAPPED, client.READ, client.PUT

# Answers for `count`, which returns one i32 and borrows no bytes. Each makes the call trap.
WRONG_ANSWERS = [
    (24,), (2**64 - 1,), (11, 0), (1,), (2, 0), (3, 0, b"env"), (19,),
    (TRAPPED,), (TRAPPED, 2**32), (TRAPPED, 2**64 - 1), (TRAPPED, 7, 7), (TRAPPED, bytes(7)),
    (RESULTS,), (RESULTS, 127), (RESULTS, ("i64", 1)), (RESULTS, ("i32", 1), ("i32", 1)), (RESULTS, ("externref", None)),
    (RESULTS, 125, 1), (RESULTS, 127, 2**32), (RESULTS, 127, bytes(7)), (RESULTS, 127, 1, b"a"), (RESULTS, bytes(1_000_000)),
    (READ,), (READ, 0), (READ, 0, 1), (READ, 1, 0, 0), (READ, 2**64 - 1, 1), (READ, 1, 2**64 - 1),
    (PUT,), (PUT, bytes(7)), (PUT, 0, b"a"), (PUT, 2**64 - 1, b"a"),
]
# Answers for `log`, which returns nothing and borrows 65,536 bytes. Each makes the call trap.
WRONG_RANGES = [
    (READ, 65_536, 1), (READ, 65_535, 2), (READ, 0, 65_537), (READ, 2**64 - 1, 1), (READ, 1, 2**64 - 1), (READ, 2**32, 1),
    (READ, 0, 2**32 + 1), (PUT, 65_536, b"a"), (PUT, 65_535, b"ab"), (PUT, 0, bytes(65_537)), (PUT, 2**64 - 1, b"ab"), (PUT, 2**32, b"a"),
]


def test_answers(tests):
    """The answers of `count` are right or wrong, and the conversation continues."""
    again = order("call", 0, "count") + message(RESULTS, ("i32", 5)) + END
    went_on = [("call", 0, 0), ("values", ("i32", 5)), ("done",)]
    for fields in WRONG_ANSWERS:
        check(tests, f"a wrong answer: {str(fields)[:60]}", COUNTING + message(*fields) + again, COUNTED + [WRONG] + went_on, 0)
    given = COUNTED + [("values", ("i32", 2**32 - 1))] + went_on
    check(tests, "a result", COUNTING + message(RESULTS, ("i32", 2**32 - 1)) + again, given, 0)
    check(tests, "a trap", COUNTING + message(TRAPPED, 2**32 - 2) + again, COUNTED + [("trap", 9, 2**32 - 2)] + went_on, 0)
    check(tests, "the input ends in place of an answer", COUNTING, COUNTED + [WRONG], 1)
    check(tests, "the input ends inside of an answer", COUNTING + message(RESULTS, ("i32", 5))[:-1], COUNTED + [WRONG], 1)


def test_lent_bytes(tests):
    """`log` reads and puts borrowed bytes, in the memory and outside of it."""
    look = order("call", 0, "byte", ("i32", 65_535)) + END
    untouched, seen = [("values", ("i32", 0)), ("done",)], [("values", ("i32", 98)), ("done",)]
    stray = message(READ, 65_536, 1) + message(RESULTS)
    given = LOGGED + [WRONG, ("not_spelt",), ("done",)]
    check(tests, "an answer behind the end of a call", LOGGING + stray + END, given, 0)
    for fields in WRONG_RANGES:
        check(tests, f"a wrong range: {str(fields)[:60]}", LOGGING + message(*fields) + look, LOGGED + [WRONG] + untouched, 0)
    read_twice = message(READ, 8, 5) + message(READ, 65_536, 0) + message(RESULTS)
    check(tests, "bytes are read", LOGGING + read_twice + END, LOGGED + [("lent", b"hello"), ("lent", b""), ("values",), ("done",)], 0)
    put_and_read = message(PUT, 65_534, b"ab") + message(READ, 65_533, 3) + message(PUT, 65_536, b"") + message(RESULTS)
    check(tests, "bytes are put", LOGGING + put_and_read + look, LOGGED + [("lent", b"\0ab"), ("values",)] + seen, 0)
    put_and_trap = message(PUT, 65_535, b"b") + message(TRAPPED, 1)
    check(tests, "bytes stay behind a trap", LOGGING + put_and_trap + look, LOGGED + [("trap", 9, 1)] + seen, 0)


def raised_by(function, *args):
    """Returns what a function raises, or a text with what it returns."""
    try:
        return f"returned {function(*args)}"
    except BaseException as error:
        return error


def begun(functions=(), module="lends", **limits):
    """Returns a client of an embedding with the instance of a module, some of whose host functions are these."""
    conversation = client.Client(PROGRAM, **limits)
    for host in rows.StandardHosts().all():
        pipes.define(conversation, host)
    for name, function in dict(functions).items():
        conversation.hosts[[host.name for host in rows.StandardHosts().all()].index(name)] = function
    conversation.order("begin", *SETUP)
    conversation.order("load", MODULES[module])
    conversation.order("link", 0)
    return conversation


class Falsy(Exception):
    """An exception that is false."""

    def __bool__(self):
        return False


# What `log` does: a name, a function, and the type of the exception that a call of it raises.
WRONG_HOSTS = [
    ("reads a byte after the memory", lambda memory: memory.read(65_536, 1), IndexError),
    ("reads a byte before the memory", lambda memory: memory.read(-1, 1), IndexError),
    ("reads a negative count", lambda memory: memory.read(5, -1), IndexError),
    ("reads at no integer", lambda memory: memory.read(1.5, 1), TypeError),
    ("writes over the end of the memory", lambda memory: memory.write(65_535, b"ab"), IndexError),
    ("writes a text", lambda memory: memory.write(65_535, "a"), TypeError),
    ("divides by zero", lambda _: 1 // 0, ZeroDivisionError),
    ("raises a false exception", lambda _: next(iter_falsy()), Falsy),
    ("returns nothing", lambda _: None, TypeError),
    ("returns a name", lambda _: ["i32"], ValueError),
    ("returns an i32 of 2^32", lambda _: [("i32", 2**32)], ValueError),
    ("returns a negative i64", lambda _: [("i64", -1)], ValueError),
    ("returns a reference of 2^32", lambda _: [("externref", 2**32)], ValueError),
    ("returns a float", lambda _: [("i32", 1.0)], TypeError),
    ("returns an f64", lambda _: [("f64", 1)], ValueError),
    ("returns no i32", lambda _: [("i32", None)], TypeError),
    ("traps with a text", lambda _: client.Trap("x"), TypeError),
    ("traps with a float", lambda _: client.Trap(1.0), TypeError),
    ("traps with True", lambda _: client.Trap(True), TypeError),
    ("traps with -1", lambda _: client.Trap(-1), ValueError),
    ("traps with 2^32", lambda _: client.Trap(2**32), ValueError),
    ("copies the memory", lambda memory: copy.copy(memory), TypeError),
]


def iter_falsy():
    """Raises an exception that is false."""
    raise Falsy
    yield


def test_hosts(tests):
    """Exceptions of host functions leave the order after its reply, and the conversation continues."""
    uses, kept = [], []

    def log(memory, *_):
        kept.append(memory)
        return uses[-1](memory)

    with begun({"log": log}) as conversation:
        for name, use, error in WRONG_HOSTS:
            uses.append(use)
            call = ("call", 0, "log", ("i32", 0), ("i32", 0))
            tests.equal(type(raised_by(conversation.order, *call)), error, f"a host function that {name}")
            seen = conversation.order("call", 0, "byte", ("i32", 65_535))
            tests.equal(seen, ("values", ("i32", 0)), f"a call after a host function that {name}")
        uses.append(lambda _: [("i64", 1)])
        tests.equal(conversation.order(*call), WRONG, "a host function that returns another type")
        for use in (lambda memory: memory.read(0, 1), lambda memory: memory.write(0, b"a")):
            tests.equal(type(raised_by(use, kept[-1])), ValueError, "the memory after its host function")
        uses.append(lambda _: conversation.order("fuel_left"))
        tests.equal(type(raised_by(conversation.order, *call)), RuntimeError, "an order of a host function")
        tests.equal(conversation.order("call", 0, "byte", ("i32", 65_535)), ("values", ("i32", 0)), "a call after these")


def test_first_exception(tests):
    """After a host function has raised an exception, the same order runs no other host function, and raises the first exception."""
    raised = []

    def count(_):
        raised.append(Falsy(len(raised)))
        raise raised[-1]

    action = '{"type":"action","line":2,"action":{"type":"invoke","field":"count","args":[]}}'
    script = '{"commands":[{"type":"module","line":1,"filename":"a"},' + ",".join([action] * 3) + "]}"
    with begun({"count": count}, "hosts") as conversation:
        conversation.order("file", "a", MODULES["hosts"])
        error = raised_by(conversation.order, "script", script.encode())
        tests.equal((error is raised[0], len(raised)), (True, 1), "three calls of a host function that raises, in a script")
        tests.equal(raised_by(conversation.order, "call", 0, "count") is raised[1], True, "the exception of the next call")


# The modules of docs/EMBEDDING.md by which a host reaches guest memory between calls, and gives guests objects:
#
# (module
#   (import "plug-in" "memory" (memory 0))
#   (import "host" "copy" (func $copy))
#   (func (export "copy") call $copy))
COPIES = bytes.fromhex(
    "0061736d01000000010401600000021f0207706c75672d696e066d656d6f727902000004686f737404636f707900000302010007080104636f707900"
    "010a0601040010000b"
)
# (module
#   (import "host" "log" (func $log (param i32 i32)))
#   (table (export "table") 3 funcref)
#   (memory (export "memory") 2)
#   (global (export "counter") (mut i32) (i32.const 41))
#   (export "log" (func $log)))
PROVIDES = bytes.fromhex(
    "0061736d0100000001060160027f7f00020c0104686f7374036c6f67000004040170000305030100020606017f0141290b072204057461626c650100"
    "066d656d6f7279020007636f756e7465720300036c6f670000"
)
# (module
#   (import "env" "memory" (memory 1))
#   (import "env" "table" (table 2 funcref))
#   (import "env" "counter" (global $counter (mut i32)))
#   (import "env" "log" (func $log (param i32 i32)))
#   (data (i32.const 8) "hello")
#   (func (export "run")
#     (global.set $counter (i32.add (global.get $counter) (i32.const 1)))
#     (call $log (i32.const 8) (i32.const 5))))
GUEST = bytes.fromhex(
    "0061736d0100000001090260027f7f0060000002360403656e76066d656d6f727902000103656e76057461626c650170000203656e7607636f756e74"
    "6572037f0103656e76036c6f670000030201010707010372756e00010a11010f00230041016a24004108410510000b0b0b010041080b0568656c6c6f"
)


def linked(conversation, module):
    """Loads and links a module, and returns the number of the instance."""
    _, number = conversation.order("load", module)
    return conversation.order("link", number)[1]


def test_recipes(tests):
    """A host reaches guest memory between calls, and gives a guest a memory, a table, a global and a function under one name."""
    uses, logged = [], []
    with client.Client(PROGRAM) as conversation:
        conversation.define("host", "copy", [], [], lambda memory: uses.pop()(memory) or [])
        conversation.define("host", "log", ["i32", "i32"], [], lambda memory, at, size: logged.append(memory.read(at[1], size[1])) or [])
        conversation.order("begin", *SETUP)
        plugin = linked(conversation, MODULES["upper"])
        conversation.order("register", plugin, "plug-in")
        copies = linked(conversation, COPIES)
        (_, at), text = conversation.order("call", plugin, "allocate", ("i32", 5))[1], []
        uses.append(lambda memory: memory.write(at, b"a b c"))
        tests.equal(conversation.order("call", copies, "copy"), ("values",), "a text that is written between calls")
        conversation.order("call", plugin, "upper", ("i32", at), ("i32", 5))
        uses.append(lambda memory: text.append(memory.read(at, 5)))
        tests.equal((conversation.order("call", copies, "copy"), text), (("values",), [b"A B C"]), "a text that is read between calls")
        provider = linked(conversation, PROVIDES)
        conversation.order("register", provider, "env")
        found = conversation.order("call", linked(conversation, GUEST), "run"), conversation.order("get_global", provider, "counter")
        tests.equal((*found, logged), (("values",), ("values", ("i32", 42)), [b"hello"]), "a guest of a provider")


# The exports of `kinds`. Then instances and names of exports that do not exist, with the number of the refusal.
KINDS = [
    ("function", ("func", ["i32"], ["i64"])), ("grow", ("func", [], [])), ("table", ("table", "funcref", 3, 9)),
    ("memory", ("memory", 1, 5)), ("global", ("global", "i64", "var")),
]  # fmt: skip
NOT_FOUND = [(1, "function", 8), (2**64 - 1, "function", 8), (0, "functions", 9), (0, "", 9), (0, "function\0", 9), (0, "größe", 9)]


def test_exports(tests):
    """One export is found as it is listed, and functions that are declared at one place share one type."""
    with begun(module="kinds") as conversation:
        tests.equal(conversation.order("exports", 0), ("exports", *KINDS), "the exports of each kind")
        for name, type_ in KINDS:
            tests.equal(conversation.order("export", 0, name), ("exports", (name, type_)), f"the export `{name}`")
        for instance, name, number in NOT_FOUND:
            found = conversation.order("export", instance, name)[:4]
            tests.equal(found, ("refused", number, 0, 0), f"the export {name!r} of the instance {instance}")
        tests.equal(conversation.order("export", 0, "nosuch"), client.UNKNOWN_EXPORT, "the text of an unknown export")
        tests.equal(conversation.order("exports", 1)[:4], ("refused", 8, 0, 0), "the exports of an unknown instance")
        conversation.order("call", 0, "grow")
        tests.equal(conversation.order("export", 0, "memory"), ("exports", ("memory", ("memory", 3, 5))), "a memory after it has grown")
    with begun(module="shared_types") as conversation:
        types = dict(conversation.order("exports", 0)[1:])
        for names in (("one", "two", "one_again"), ("add", "sum"), ("three", "three_again")):
            tests.equal(len({id(types[name]) for name in names}), 1, f"the types of {names}")
        tests.equal((types["one"] == types["four"], types["one"] is types["four"]), (True, False), "equal types of two places")


MOST_SERVED, MOST_SECONDS = 19_500, 1.5  # KiB of the server, and seconds of the client


def test_many_exports(tests):
    """Many exports of one function share one type, so they take little memory and time, even when all are listed."""
    start, name = time.process_time(), rows.MANY_NAMES[-1]
    with client.Client(PROGRAM) as conversation:
        conversation.order("begin", *SETUP)
        conversation.order("load", rows.many_exports())
        conversation.order("link", 0)
        _, found = conversation.order("export", 0, name)
        _, *exports = conversation.order("exports", 0)
        taken = rows.most_memory(conversation.process.pid), time.process_time() - start
    tests.equal((taken[0] < MOST_SERVED, taken[1] < MOST_SECONDS), (True, True), f"what many exports take: {taken}")
    tests.equal([export for export, _ in exports], rows.MANY_NAMES, "the names of many exports")
    types = {id(type_) for _, type_ in exports}
    tests.equal((len(types), exports[-1] == found, len(found[1][1])), (1, True, rows.MANY_TYPES), "the type of many exports")


# Orders that raise an exception before anything is sent, each with the exception.
WRONG_ORDERS = [
    (ValueError, "call", 0, "add", ("i32", 2**40)), (ValueError, "call", 0, "add", ("i32", -1)),
    (ValueError, "call", 0, "add", ("i64", 2**64)),
    (TypeError, "call", 0, "add", ("i32", 1.0)), (TypeError, "call", 0, "add", ("i32", True)), (TypeError, "call", 0, "add", ("i32", None)),
    (ValueError, "call", 0, "add", ("f64", 1)), (ValueError, "call", 0, "add", ("externref", 2**32)),
    (ValueError, "call", 0, "add", ("funcref", -1)), (TypeError, "call", 0, "add", 1), (TypeError, "call", 0, None), (TypeError, "call", 0),
    (TypeError, "call", 0, b"add"), (ValueError, "call", 0, "\udc80"), (ValueError, "call", -1, "add"), (ValueError, "call", 2**64, "add"),
    (TypeError, "call", None, "add"), (TypeError, "load", "text"), (TypeError, "load", 5), (TypeError, "load", None), (TypeError, "load"),
    (TypeError, "link"), (TypeError, "link", 0, 0), (TypeError, "link", "0"), (TypeError, "link", 0.0), (TypeError, "link", True),
    (TypeError, "register", 0, b"name"), (ValueError, "register", 0, "\udc80"), (TypeError, "get_global", 0, None),
    (TypeError, "export", 0), (TypeError, "export", 0, b"f"), (TypeError, "export", None, "f"), (ValueError, "export", -1, "f"),
    (ValueError, "export", 0, "\udc80"),
    (ValueError, "set_fuel", -1), (ValueError, "set_fuel", 2**64), (TypeError, "fuel_left", 0), (TypeError, "file", "a", "text"),
    (ValueError, "quota", -1), (TypeError, "quota", None), (TypeError, "quota_left", 0),
    (TypeError, "script", "{}"), (ValueError, "define", "m", "n", ["f64"], []), (TypeError, "define", "m", "n", None, []),
    (KeyError, "nosuch"),
]  # fmt: skip


def test_wrong_orders(tests):
    """Fields that cannot be sent raise an exception before anything is sent."""
    with begun() as conversation:
        for error, *fields in WRONG_ORDERS:
            found = raised_by(conversation.order, *fields)
            tests.equal(isinstance(found, error), True, f"the order {fields}, which raises {found!r}")
        for use in (copy.copy, copy.deepcopy, pickle.dumps):
            tests.equal(type(raised_by(use, conversation)), TypeError, f"{use.__name__} of a client")
        tests.equal(conversation.order("fuel_left")[0], "number", "an order after these")


# Scripts of false servers: one writes the bytes of the file next to it and waits, one writes them and ends, and one only waits.
WRITES, CUTS, WAITS = '#!/bin/sh\ncat "$0.reply"\nexec sleep 60\n', '#!/bin/sh\ncat "$0.reply"\n', "#!/bin/sh\nexec sleep 60\n"


@contextlib.contextmanager
def false_server(script, reply=b"", **limits):
    """Runs a client of a server that is this shell script, and that can write these bytes."""
    with tempfile.TemporaryDirectory() as folder:
        path = os.path.join(folder, "server")
        with open(path + ".reply", "wb") as file:
            file.write(reply)
        with open(path, "w", encoding="utf-8") as file:
            file.write(script)
        os.chmod(path, 0o700)
        conversation = client.Client(path, **{"seconds": 20, **limits})
        try:
            yield conversation
        finally:
            conversation.kill("the test has ended")
            conversation.close()


NUMBER, VALUES, TRAP, EXHAUSTED, REFUSED, EXPORTS, REPORT, CALL, LENT, IMPORTS, TEXT = 1, 2, 3, 4, 5, 6, 7, 10, 11, 12, 13
NOTHING = (0, [], [])  # the type of a function
# Orders, by name and fields, and messages that are not replies to them.
BROKEN_REPLIES = {
    ("fuel_left",): [
        (14,), (2**32, 5), (0,), (LENT, 5), (IMPORTS, 0), (NUMBER,), (NUMBER, bytes(7)), (NUMBER, bytes(9)), (NUMBER, 0, 0), (VALUES, ("i32", 0)),
        (CALL, 0, 0), (8, 0), (9, b"a"),
    ],
    ("set_fuel", 1): [(0, 0), (NUMBER, 0)],
    ("quota", 1): [(0, 0), (NUMBER, 0)],
    ("quota_left",): [(0,), (NUMBER,), (VALUES,), (TEXT,)],
    ("explain",): [(0,), (NUMBER, 0), (TEXT, b"\xff")],
    ("load", b""): [(TRAP, 1, 0)],
    ("link", 0): [
        (VALUES,), (REFUSED, 0, 0, 0), (REFUSED, 18, 0, 0), (REFUSED, 65, 0, 0), (REFUSED, 5, 6, 0), (REFUSED, 5, 0, 1), (REFUSED, 5, 0),
        (REFUSED, 5, 0, 0, b"\xff"),
    ],
    ("call", 0, "f"): [
        (VALUES, 127, 2**40), (VALUES, 127, 2**32), (VALUES, 125, 0), (VALUES, 2**32 + 127, 0), (VALUES, 111, 2**32 + 1),
        (VALUES, 112, 2**64 - 1), (VALUES, 127), (VALUES, 127, 1, b"a"), (NUMBER, 0), (TRAP, 0, 0), (TRAP, 10, 0), (TRAP, 9, 2**32),
        (TRAP, 1, 1), (TRAP, 1), (TRAP, 1, 0, 0), (EXHAUSTED, 0), (EXHAUSTED, 4), (EXHAUSTED,), (CALL, 0), (CALL, 0, 0), (LENT,),
        (LENT, b"abc"),
    ],
    ("get_global", 0, "g"): [(VALUES,), (VALUES, ("i32", 0), ("i32", 0))],
    ("exports", 0): [
        (EXPORTS,), (EXPORTS, bytes(7)), (EXPORTS, 1), (EXPORTS, 2**61), (EXPORTS, 2**64 - 1), (EXPORTS, 1, 4, bytes(16)),
        (EXPORTS, 1, 0, []), (EXPORTS, 1, 0, [], bytes(7)), (EXPORTS, 1, *NOTHING), (EXPORTS, 2, *NOTHING), (EXPORTS, 0, "f", 0),
        (EXPORTS, 2, *NOTHING, *NOTHING, "f", 0), (EXPORTS, 2, *NOTHING, *NOTHING, "f", 1), (EXPORTS, 1, *NOTHING, "f", 1),
        (EXPORTS, 1, *NOTHING, "f", 2**32), (EXPORTS, 1, *NOTHING, "f", 2**64 - 1), (EXPORTS, 1, *NOTHING, "f"),
        (EXPORTS, 1, *NOTHING, "f", bytes(7)), (EXPORTS, 1, *NOTHING, "f", 0, b"a"), (EXPORTS, 1, *NOTHING, "f", 0, "g"),
        (EXPORTS, 1, *NOTHING, 2, b"f"), (EXPORTS, 1, *NOTHING, 9, b"f", 0), (EXPORTS, 1, *NOTHING, 2**64 - 1, b"f", 0),
        (EXPORTS, 1, *NOTHING, 1, b"\xff", 0), (EXPORTS, 1, 0, 1, 125, [], "f", 0), (EXPORTS, 1, 0, 2**61, [], "f", 0),
        (EXPORTS, 1, 0, [], 2**64 - 1, "f", 0), (EXPORTS, 1, 1, 112, 2, 1, 1, "t", 0), (EXPORTS, 1, 1, 112, 2, 0, 3, "t", 0),
        (EXPORTS, 1, 1, 112, 2, 2, 3, "t", 0), (EXPORTS, 1, 1, 112, 2**32, 0, 0, "t", 0), (EXPORTS, 1, 2, 2**16 + 1, 0, 0, "m", 0),
        (EXPORTS, 1, 3, 127, 2, "g", 0), (EXPORTS, 1, 3, 125, 0, "g", 0), (NUMBER, 0),
    ],
    ("module_exports", 0): [(IMPORTS, 0), (EXPORTS, 1, *NOTHING), (EXPORTS, 1, *NOTHING, "m", "f", 0)],
    ("module_imports", 0): [
        (EXPORTS, 0), (IMPORTS,), (IMPORTS, 1, *NOTHING), (IMPORTS, 1, *NOTHING, "f", 0), (IMPORTS, 1, *NOTHING, "m", "f"),
        (IMPORTS, 1, *NOTHING, "m", "f", 1), (IMPORTS, 1, *NOTHING, "m", 2, b"f", 0), (IMPORTS, 1, *NOTHING, "m", "f", 0, "m"),
        (IMPORTS, 2, *NOTHING, *NOTHING, "m", "f", 1),
    ],
    ("export", 0, "f"): [
        (EXPORTS,), (EXPORTS, 1, *NOTHING), (EXPORTS, 1, *NOTHING, "g", 0), (EXPORTS, 1, *NOTHING, "", 0),
        (EXPORTS, 1, *NOTHING, "f", 0, "g", 0), (EXPORTS, 1, *NOTHING, "f", 0, "f", 0), (EXPORTS, 2, *NOTHING, *NOTHING, "f", 0),
        (VALUES,), (0,), (REFUSED, 9, 0, 1),
    ],
    ("script", b""): [(REPORT, 1, 0), (REPORT, 1, 1, 0), (REPORT, 1, 1, 0, 2**32), (REPORT, 1, 0, 0, 5), (REPORT, 1, 2**61, 0)],
}  # fmt: skip


def test_broken_replies(tests):
    """A reply that breaks the protocol or is cut raises ProtocolError and ends the process."""
    for order_fields, reply in [(fields, reply) for fields, replies in BROKEN_REPLIES.items() for reply in replies]:
        with false_server(WRITES, message(*reply)) as conversation:
            found = raised_by(conversation.order, *order_fields)
            ended = conversation.process.poll() is not None
            tests.equal((type(found), ended), (client.ProtocolError, True), f"{str(reply)[:60]} for the order {order_fields}")
    whole = message(NUMBER, 7)
    for size in (0, 1, 15, 16, 17, 23):
        with false_server(CUTS, whole[:size]) as conversation:
            found = raised_by(conversation.order, "fuel_left")
            tests.equal(type(found), client.ProtocolError, f"a reply that is cut after {size} bytes")
            tests.equal("expected" in str(found) and "found" in str(found), True, f"the text of {found}")
            tests.equal(type(raised_by(conversation.order, "fuel_left")), client.ProtocolError, "an order after it")
    with false_server(CUTS, encode(2**62) + encode(NUMBER) + b"abc") as conversation:
        tests.equal(type(raised_by(conversation.order, "fuel_left")), client.ProtocolError, "a reply of 2^62 bytes")
    with false_server(WRITES, whole) as conversation:
        tests.equal(conversation.order("fuel_left"), ("number", 7), "a right reply")


# Orders that list exports and imports, right replies to them, and what the client returns.
TABLE, GLOBAL = (1, 111, 2, 1, 2), (3, 126, 1)
TABLE_READ, GLOBAL_READ = ("table", "externref", 2, 2), ("global", "i64", "var")
RIGHT_EXPORTS = [
    (("export", 0, "f"), (EXPORTS, 1, *NOTHING, "f", 0), ("exports", ("f", ("func", [], [])))),
    (("export", 0, "f"), (EXPORTS, 1, *GLOBAL, "f", 0), ("exports", ("f", GLOBAL_READ))),
    (("export", 0, "f"), (EXPORTS, 0), client.UNKNOWN_EXPORT),
    (("export", 0, "f"), (REFUSED, 8, 0, 0, b"unknown"), ("refused", 8, 0, 0, "unknown")),
    (("exports", 0), (EXPORTS, 0), ("exports",)),
    (("exports", 0), (EXPORTS, 1, *TABLE, "", 0, "t", 0), ("exports", ("", TABLE_READ), ("t", TABLE_READ))),
    (("exports", 0), (EXPORTS, 2, *TABLE, *GLOBAL, "g", 1, "t", 0), ("exports", ("g", GLOBAL_READ), ("t", TABLE_READ))),
    (("module_exports", 0), (EXPORTS, 1, *TABLE, "t", 0), ("exports", ("t", TABLE_READ))),
    (("module_imports", 0), (IMPORTS, 0), ("imports",)),
    (("module_imports", 0), (IMPORTS, 1, *GLOBAL, "m", "g", 0, "", "", 0), ("imports", ("m", "g", GLOBAL_READ), ("", "", GLOBAL_READ))),
]


def test_right_exports(tests):
    """The client reads right replies to the orders that list exports and imports."""
    for order_fields, reply, wanted in RIGHT_EXPORTS:
        with false_server(WRITES, message(*reply)) as conversation:
            tests.equal(conversation.order(*order_fields), wanted, f"{str(reply)[:60]} for the order {order_fields}")


# Wrong requests for a host function, when the only one has an i32 parameter. Then a right request, and wrong replies to `read`.
BROKEN_CALLS = [(CALL, 1, 0), (CALL, 0, 0, ("i64", 0)), (CALL, 0, 0), (CALL, 0, 2**32 + 1, ("i32", 0)), (CALL, 0, 0, ("i32", 0), 127)]
ASKED = (CALL, 0, 8, ("i32", 0))
BROKEN_LENT = [(LENT, b"abc"), (LENT, b"abcde"), (NUMBER, b"abcd"), (VALUES, b"abcd"), (TRAP, 9, 7)]


def test_broken_calls(tests):
    """Requests for a host function and replies to `read` that break the protocol raise ProtocolError."""

    def host(memory, _):
        try:
            memory.read(0, 4)
        except client.ProtocolError:
            pass
        return []

    cases = [(f"the request {call}", call) for call in BROKEN_CALLS]
    cases += [(f"{lent} for lent bytes", ASKED, lent, (VALUES,)) for lent in BROKEN_LENT]
    for name, *messages in cases:
        with false_server(WRITES, message(0) + b"".join(message(*fields) for fields in messages)) as conversation:
            conversation.define("m", "n", ["i32"], [], host)
            found = raised_by(conversation.order, "call", 0, "f")
            tests.equal((type(found), conversation.process.poll() is not None), (client.ProtocolError, True), name)
    with false_server(WRITES, message(0) + message(*ASKED) + message(LENT, b"abcd") + message(VALUES)) as conversation:
        conversation.define("m", "n", ["i32"], [], host)
        tests.equal(conversation.order("call", 0, "f"), ("values",), "four lent bytes")


def check_ended(tests, conversation, error, name):
    """Runs a test: an order raises this error, the process has ended, and every later order raises ProtocolError."""
    tests.equal(type(error[0]), error[1], name)
    tests.equal(conversation.process.poll() is not None, True, f"the process after {name}")
    tests.equal(type(raised_by(conversation.order, "fuel_left")), client.ProtocolError, f"an order after {name}")
    tests.equal(conversation.close() is not None, True, f"the end after {name}")


def test_time_limits(tests):
    """An order that takes too long raises TimeoutError and ends the process."""
    with false_server(WAITS, seconds=0.2) as conversation:
        check_ended(tests, conversation, (raised_by(conversation.order, "fuel_left"), TimeoutError), "an order that is not replied to")
    with false_server(WRITES, message(NUMBER, 7)[:20], seconds=0.2) as conversation:
        check_ended(tests, conversation, (raised_by(conversation.order, "fuel_left"), TimeoutError), "a reply that stops")
    with false_server(WAITS, seconds=0.2) as conversation:
        found = raised_by(conversation.order, "load", bytes(10_000_000))
        check_ended(tests, conversation, (found, TimeoutError), "an order that is not read")
    conversation = begun({"log": lambda *_: time.sleep(0.4) or []}, seconds=0.2)
    found = raised_by(conversation.order, "call", 0, "log", ("i32", 0), ("i32", 0))
    check_ended(tests, conversation, (found, TimeoutError), "a host function that takes too long")
    with begun(seconds=60) as conversation:
        tests.equal(conversation.order("fuel_left")[0], "number", "an order within its time")


def looping(**limits):
    """Returns a client for whose embedding a call of `loop` does not return in time."""
    conversation = client.Client(PROGRAM, **limits)
    conversation.order("begin", 2**60, 100, 16, 100)
    conversation.order("load", LOOPS)
    conversation.order("link", 0)
    return conversation


MOST_HELD, MOST_SPENT = 40_000, 5  # KiB of a server with a quota, and seconds of processor time


def check_bounded(tests, conversation, name):
    """Runs a test: the server of a conversation with a quota has taken little time, and little memory unless `rt try` has built it."""
    held, spent = rows.most_memory(conversation.process.pid), rows.processor_seconds(conversation.process.pid)
    tests.equal((TRIED or held < MOST_HELD, spent < MOST_SPENT), (True, True), f"what {name} take: {held} KiB and {spent} s")


def test_quota(tests):
    """A quota bounds what modules, instances and calls hold."""
    with client.Client(PROGRAM, quota=rows.QUOTA) as conversation:
        conversation.order("begin", 2**20, 1_000, 1_024, 1_000_000)
        for name in rows.HOSTILE:
            conversation.order("load", MODULES[name])
        ends = [conversation.order("link", number)[:2] for number in range(3)]
        ends.append(conversation.order("call", 0, "f"))
        tests.equal(ends, [("refused", 13), ("refused", 13), ("number", 0), ("exhausted", 3)], "modules that would take much")
        check_bounded(tests, conversation, "modules that would take much")
    with client.Client(PROGRAM, quota=rows.QUOTA) as conversation:
        linked, left = divmod(rows.QUOTA - rows.PAGE_LOADED, rows.PAGE_LINKED)
        conversation.order("begin", *SETUP)
        conversation.order("load", rows.PAGE)
        ends = [conversation.order("link", 0)[:2] for _ in range(rows.PAGE_LINKS)]
        wanted = [("number", number) for number in range(linked)] + [("refused", 13)] * (rows.PAGE_LINKS - linked)
        tests.equal((ends, conversation.order("quota_left")), (wanted, ("number", left)), f"{rows.PAGE_LINKS} links")
        check_bounded(tests, conversation, f"{rows.PAGE_LINKS} links")


# Quotas of a program, orders `quota`, and the quota of the embedding.
QUOTAS = [
    (None, [], 2**64 - 1), (None, [5_000], 5_000), (None, [5_000, 7_000], 7_000), (5_000, [], 5_000), (5_000, [7_000], 5_000),
    (5_000, [0, 2**64 - 1], 5_000), (5_000, [3_000], 3_000), (0, [1], 0), (2**64 - 1, [], 2**64 - 1),
]  # fmt: skip


def test_quotas(tests):
    """The last order for a quota counts, and it can only lower that of the program."""
    for quota, orders, wanted in QUOTAS:
        with client.Client(PROGRAM, quota=quota) as conversation:
            replies = [conversation.order("quota", number) for number in orders]
            replies += [conversation.order("begin", *SETUP), conversation.order("quota_left")]
            tests.equal(replies, [("done",)] * len(orders) + [("done",), ("number", wanted)], f"a quota of {quota} and {orders}")
    for quota, error in ((-1, ValueError), (2**64, ValueError), ("5", TypeError), (5.0, TypeError), (True, TypeError)):
        tests.equal(type(raised_by(client.Client, PROGRAM, None, None, None, quota)), error, f"a quota of {quota!r}")


def interrupt(*_):
    """Does what an interrupt does."""
    raise KeyboardInterrupt


def test_interrupts(tests):
    """An interrupt ends the process and leaves the order."""
    conversation = begun({"log": interrupt})
    found = raised_by(conversation.order, "call", 0, "log", ("i32", 0), ("i32", 0))
    check_ended(tests, conversation, (found, KeyboardInterrupt), "an interrupt in a host function")
    before = signal.signal(signal.SIGALRM, interrupt)
    with looping() as conversation:
        signal.setitimer(signal.ITIMER_REAL, 0.2)
        found = raised_by(conversation.order, "call", 0, "loop")
        check_ended(tests, conversation, (found, KeyboardInterrupt), "an interrupt of an order")
        signal.setitimer(signal.ITIMER_REAL, 0)
    signal.signal(signal.SIGALRM, before)


def test_processor_limit(tests):
    """The limit of processor time holds for the process."""
    conversation = looping(seconds=30, cpu_seconds=1)
    found = raised_by(conversation.order, "call", 0, "loop")
    check_ended(tests, conversation, (found, client.ProtocolError), "a call that takes more processor time")
    tests.equal("-9" in str(found), True, f"the status in the text of {found}")
    tests.equal(isinstance(raised_by(client.Client, PROGRAM, None, -2), ValueError), True, "a bound that is none")


def test_memory_limit(tests):
    """The limit of memory holds for the process."""
    with client.Client(PROGRAM, memory_bytes=64 * 2**20) as conversation:
        conversation.order("begin", 2**40, 100, 65_536, 100)
        conversation.order("load", GROWS)
        conversation.order("link", 0)
        found = conversation.order("call", 0, "grow", ("i32", 2_000))
        tests.equal(found, ("exhausted", 3), "a memory that grows over the bound of the process")


def test_end(tests):
    """A client ends its process, even if an exception leaves its block."""
    with client.Client(PROGRAM) as conversation:
        pass
    tests.equal((conversation.process.poll(), conversation.close()), (0, 0), "the status after a block")
    tests.equal(type(raised_by(conversation.order, "fuel_left")), client.ProtocolError, "an order after the end")
    with contextlib.suppress(KeyError), client.Client(PROGRAM) as conversation:
        raise KeyError
    tests.equal(conversation.process.poll(), 0, "the status after a block that an exception has left")
    conversation = looping()
    closing = threading.Timer(0.2, conversation.close)
    closing.start()
    check_ended(tests, conversation, (raised_by(conversation.order, "call", 0, "loop"), client.ProtocolError), "an end by another thread")
    closing.join()
    conversation = begun({"log": lambda *_: conversation.close()})
    found = raised_by(conversation.order, "call", 0, "log", ("i32", 0), ("i32", 0))
    check_ended(tests, conversation, (found, client.ProtocolError), "a host function that ends the process")


def test_scripts(tests):
    """Files are kept for one script."""
    file, script = order("file", "a", MODULES["sum"]), order("script", b'{"commands":[{"type":"module","line":1,"filename":"a"}]}')
    passed, missing, done = ("report", 1, 0, 0), ("refused", 17, 5, 0), ("done",)
    check(tests, "a file for one script", BEGUN + file + script + script + END, ANSWERED + [done, passed, missing, done], 0)
    refused = order("script", b"{")
    given = ANSWERED + [done, ("refused", 15, 0, 0), missing, done]
    check(tests, "a file for a script that is refused", BEGUN + file + refused + script + END, given, 0)
    second = order("file", "a", b"no module")
    check(tests, "of two files the first counts", BEGUN + file + second + script + END, ANSWERED + [done, done, passed, done], 0)


def test_texts(tests):
    """The texts of refusals state why and where."""
    conversation = client.Client(PROGRAM)
    conversation.order("begin", *SETUP)
    malformed, unknown = ("refused", 1, 1, 7, "malformed module at byte 7"), ("refused", 5, 0, 0, "there is no module of the number")
    tests.equal(conversation.order("load", MODULES["seven_bytes"]), malformed, "the text of a malformed module")
    tests.equal(conversation.order("link", 0), unknown, "the text of an unknown module")
    tests.equal(conversation.order("load", MODULES["missing"]), ("number", 0), "a module with an import")
    tests.equal(conversation.order("link", 0), ("refused", 6, 2, 0, "import 0 is unknown"), "the text of an unknown import")
    tests.equal(pipes.end(conversation), 0, "the end")


# (module (memory 65536))
GREATEST_MEMORY = bytes.fromhex("0061736d0100000005050100808004")
# (module (memory 1) (func (export "grow") (param i32) (result i32) local.get 0 memory.grow))
GROWS = bytes.fromhex("0061736d0100000001060160017f017f0302010005030100010708010467726f7700000a08010600200040000b")


# (module (func (export "loop") (loop br 0)))
LOOPS = bytes.fromhex("0061736d0100000001040160000003020100070801046c6f6f7000000a0901070003400c000b0b")


def test_memory(tests):
    """Orders run out of memory, and the conversation continues."""
    large, done = order("begin", 2**40, 100, 65_536, 100), ("done",)
    given = [done, ("number", 0), ("refused", 13, 0, 0), ("number", 1), ("number", 0), ("exhausted", 3), ("values", ("i32", 1)), done]
    grow = order("load", GROWS) + order("link", 1) + order("call", 0, "grow", ("i32", 65_000)) + order("call", 0, "grow", ("i32", 1))
    check(tests, "memories of 4 GiB", large + order("load", GREATEST_MEMORY) + order("link", 0) + grow + END, given, 0)


def test_explanations(tests):
    """`explain` says why the order before was refused, as often as it is asked."""
    text = ("text", "there is no module of the number")
    refused = [("refused", 5, 0, 0), text, text, LEFT_AT_FIRST, ("not_now",), ("done",)]
    check(tests, "a refused order", BEGUN + order("link", 5) + EXPLAIN * 2 + LEFT + EXPLAIN + END, ANSWERED + refused, 0)
    check(tests, "nothing was refused", BEGUN + EXPLAIN + END, ANSWERED + [("not_now",), ("done",)], 0)
    with_field = message(client.NUMBERS["explain"], b"\0")
    check(tests, "an order to explain with a field", BEGUN + with_field + END, ANSWERED + [("not_spelt",), ("done",)], 0)
    scripts = [("refused", 15, 0, 0), ("text", "not JSON, or nested more than 127 levels deep"), ("done",)]
    check(tests, "a refused script", BEGUN + order("script", b"") + EXPLAIN + END, ANSWERED + scripts, 0)


def spell_leb(number):
    """Returns the unsigned LEB128 encoding of a number in five bytes."""
    return bytes([number >> 7 * k & 0x7F | 0x80 for k in range(4)] + [number >> 28])


def module_of(size):
    """Returns a module of this many bytes, which has one custom section."""
    return b"\0asm\1\0\0\0\0" + spell_leb(size - 14) + bytes(size - 14)


MOST_BYTES = 67_108_864  # of a module


def test_large_messages(tests):
    """Messages are large, or too large, and the conversation continues."""
    largest, larger = order("load", module_of(MOST_BYTES)), order("load", module_of(MOST_BYTES + 1))
    check(tests, "the largest module", BEGIN + largest + END, [("done",), ("number", 0), ("done",)], 0)
    check(tests, "a module that is too large", BEGIN + larger + END, [("done",), ("refused", 3, 0, 0), ("done",)], 0)
    text = ("text", f"module exceeds a limit: {2**26 + 1} bytes, and at most {2**26} are allowed")
    check(tests, "why it is refused", BEGIN + larger + EXPLAIN + END, [("done",), ("refused", 3, 0, 0), text, ("done",)], 0)


def test_message_without_memory(tests):
    """A message is too large for the memory, and the conversation continues."""
    given = [("done",), ("refused", 13, 0, 0), LEFT_AT_FIRST, ("done",)]
    orders = BEGIN + order("load", module_of(MOST_BYTES)) + LEFT + END
    check(tests, "a module without memory for it", orders, given, 0, 32 * 2**20)


def test_no_memory(tests):
    """The program runs with less and less memory, until it cannot begin, and finally cannot be started."""
    statuses = set()
    for size in range(512, 64, -16):
        bound = lambda: resource.setrlimit(resource.RLIMIT_DATA, (1_024 * size, 1_024 * size))  # noqa: B023, E731
        ran = subprocess.run([PROGRAM], input=BEGIN + END, capture_output=True, timeout=60, preexec_fn=bound)
        statuses.add(ran.returncode)
        if ran.returncode not in (0, 4):
            break
        tests.equal((ran.stdout == b"", ran.stderr), (ran.returncode == 4, b""), f"{size} KiB of memory, and the status {ran.returncode}")
    tests.equal({0, 4} <= statuses, True, "the statuses with much and with no memory")


def written_to(output):
    """Returns standard error and the status of a program whose replies go to this output."""
    ran = subprocess.run([PROGRAM], input=BEGIN, stdout=output, stderr=subprocess.PIPE, timeout=60)
    return ran.stderr, ran.returncode


def dying_client(data, size):
    """Returns standard error and the status of a program whose client writes these bytes, reads `size` bytes, and dies."""
    process = subprocess.Popen([PROGRAM], stdin=subprocess.PIPE, stdout=subprocess.PIPE, stderr=subprocess.PIPE)
    process.stdin.write(data)
    process.stdin.flush()
    process.stdout.read(size)
    process.stdout.close()
    process.stdin.close()
    with process.stderr:
        return process.stderr.read(), process.wait(60)


def size_of(replies):
    """Returns how many bytes these replies have."""
    return sum(16 + len(b"".join(encode(field) for field in fields)) for _, *fields in replies)


def test_broken_outputs(tests):
    """The program cannot write its replies, and ends."""
    spin = BEGUN + order("load", MODULES["recursion"]) + order("link", 0) + order("set_fuel", 10**7) + order("call", 0, "spin")
    spinning = ANSWERED + [("number", 0), ("number", 0), ("done",)]
    reading = LOGGING + message(READ, 0, 65_536) + message(READ, 0, 65_536)
    read_end, write_end = os.pipe()
    os.close(read_end)
    tests.equal(written_to(write_end), (b"", 3), "a client that is not there")
    os.close(write_end)
    with open("/dev/full", "wb") as full:
        tests.equal(written_to(full), (b"", 3), "an output that is full")
    tests.equal(dying_client(COUNTING, size_of(COUNTED)), (b"", 3), "a client dies while a host function runs")
    tests.equal(dying_client(spin, size_of(spinning)), (b"", 3), "a client dies while a function runs")
    tests.equal(dying_client(reading, size_of(LOGGED) + 1), (b"", 3), "a client dies while it is written to")


# The tests that limit the memory of the program.
LIMITED = {test_many_exports, test_memory_limit, test_memory, test_message_without_memory, test_no_memory}


def main():
    """Runs all tests, and returns the status."""
    tests = rows.Tests()
    for name, test in list(globals().items()):
        if TRIED and name.startswith("test_") and test in LIMITED:
            print(f"skipped: {name} (it limits the memory of the program)")
        elif name.startswith("test_"):
            test(tests)
    return tests.end()


if __name__ == "__main__":
    sys.exit(main())
