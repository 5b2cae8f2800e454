#!/usr/bin/env python3
"""Tests the package tegvurn: `python3 test_tegvurn.py [LIBRARY]`.

The variable TEGVURN_LIBRARY can name the library too. Without a name, it is the one in bindings/c/build. The tests print how many passed
and failed. The status is 1 if one failed.
"""
import ast
import copy
import ctypes
import gc
import os
import pickle
import queue
import random
import re
import signal
import subprocess
import sys
import threading
import time
import weakref

HERE = os.path.dirname(os.path.abspath(__file__))
LIBRARY = sys.argv[1] if len(sys.argv) > 1 else os.environ.get("TEGVURN_LIBRARY", os.path.join(HERE, "../c/build/libtegvurn.so"))
os.environ["TEGVURN_LIBRARY"] = os.path.abspath(LIBRARY)
sys.dont_write_bytecode = True

import rows  # noqa: E402
import tegvurn  # noqa: E402

MODULES = rows.read_rows()[0]
PLACES = [None, "byte", "import", "section", "function", "command"]
NUMBER = tegvurn.FunctionType([], ["i32"])
# A script that loads a module and calls its `count`.
COUNT = '{"type":"action","line":2,"action":{"type":"invoke","field":"count","args":[]}}'
SCRIPT = '{"commands":[{"type":"module","line":1,"filename":"a"},' + COUNT + "]}"


def give(value, wanted):
    """Returns a value of the rows as a result, with its type if that is not the declared one."""
    return value[1] if value[0] == wanted else tegvurn.Value(*value)


def answer_with(host):
    """Returns a host function of the rows as one of the package."""

    def answer(memory, *args):
        try:
            values = host.function(memory, *args)
        except rows.HostTrap as trap:
            raise tegvurn.HostTrap(*trap.args) from None
        return [give(value, wanted) for value, wanted in zip(values, host.results)]

    return answer


def show_export(type_):
    """Returns the type of an export in the format of the rows."""
    if isinstance(type_, tegvurn.FunctionType):
        return rows.show_type("func", *type_)
    if isinstance(type_, tegvurn.GlobalType):
        return rows.show_type("global", type_.value, "var" if type_.is_mutable else "const")
    return rows.show_type("table" if isinstance(type_, tegvurn.TableType) else "memory", *type_)


def show_error(error):
    """Returns an exception in the format of the rows."""
    if isinstance(error, tegvurn.Refused):
        return f"refused {error.number} {PLACES.index(error.place)} {error.at}"
    if isinstance(error, tegvurn.Trap):
        return f"trap {error.number} {error.code}"
    return f"exhausted {error.number}" if isinstance(error, tegvurn.Exhausted) else repr(error)


def answered(function, *args):
    """Returns what a function returns or raises, in the format of the rows."""
    try:
        return str(function(*args))
    except tegvurn.Error as error:
        Embedding.explained = str(error)
        return show_error(error)


class Embedding:
    """An embedding that runs rows, in this process."""

    explained = "nothing"  # why the last row that was refused was

    def __init__(self, embedding):
        self.embedding, self.close = embedding, embedding.close

    def load(self, module):
        return answered(self.embedding.load, module)

    def link(self, module):
        return answered(self.embedding.link, module)

    def register(self, instance, name):
        return answered(lambda: self.embedding.register(instance, name) or "done")

    def show_call(self, instance, name, args):
        """Returns the results of a call in the format of the rows."""
        numbers = self.embedding.call(instance, name, *(tegvurn.Value(*arg) for arg in args))
        return rows.show_values(zip(self.embedding.exports(instance)[name].results, numbers))

    def call(self, instance, name, args):
        return answered(self.show_call, instance, name, args)

    def show_global(self, instance, name):
        """Returns the value of a global in the format of the rows."""
        number = self.embedding.get_global(instance, name)
        return rows.show_values([(self.embedding.exports(instance)[name].value, number)])

    def get(self, instance, name):
        return answered(self.show_global, instance, name)

    def fuel(self, fuel):
        self.embedding.fuel = fuel
        return "done"

    def left(self):
        return str(self.embedding.fuel)

    def quota_left(self):
        return str(self.embedding.quota_left)

    def explain(self):
        return self.explained

    def show_exports(self, instance):
        """Returns the exports in the format of the rows."""
        return rows.show_list(f"{name}:{show_export(type_)}" for name, type_ in self.embedding.exports(instance).items())

    def exports(self, instance):
        return answered(self.show_exports, instance)

    def module_exports(self, module):
        return answered(lambda: rows.show_list(f"{name}:{show_export(type_)}" for name, type_ in self.embedding.module_exports(module).items()))

    def module_imports(self, module):
        return answered(lambda: rows.show_list(f"{of}.{name}:{show_export(type_)}" for of, name, type_ in self.embedding.module_imports(module)))

    def show_script(self, json, files):
        """Returns the report of a script in the format of the rows."""
        report = self.embedding.script(json, files)
        return " ".join(map(str, ["report", *report[:3], *report.failed_lines]))

    def script(self, json, files):
        return answered(self.show_script, json, files)


def begin(setup, hosts, quota=None):
    """Begins an embedding with these host functions. Returns it, or None, and the result of `new`."""
    pairs = [((host.module, host.name), ((host.parameters, host.results), answer_with(host))) for host in hosts]
    try:
        return Embedding(tegvurn.Embedding(*setup, hosts=pairs, quota=quota)), "done"
    except tegvurn.Error as error:
        return None, show_error(error)


def raised_by(function, *args):
    """Returns what a function raises, or a text with what it returns."""
    try:
        return f"gave {function(*args)}"
    except BaseException as error:
        return error


def with_count(count):
    """Returns an embedding with the instance of `hosts`, in which `count` is this function."""
    pairs = [((host.module, host.name), ((host.parameters, host.results), answer_with(host))) for host in rows.StandardHosts().all()]
    embedding = tegvurn.Embedding(fuel=1_000, hosts=[(("env", "count"), (NUMBER, count)), *pairs[1:]])
    embedding.link(embedding.load(MODULES["hosts"]))
    return embedding


def test_rows(tests):
    """The rows pass."""
    rows.Rows(begin).run(tests)


class Falsy(Exception):
    """An exception that is false."""

    def __bool__(self):
        return False


class Empty(Exception):
    """An exception whose length is 0."""

    def __len__(self):
        return 0


class Unmade(tegvurn.HostTrap):
    """A trap without a code."""

    def __init__(self):
        pass


def test_exceptions(tests):
    """The call raises what a host function raises, and the embedding stays usable."""
    thrown = []

    def count(_):
        if thrown:
            raise thrown.pop()
        return [5]

    with with_count(count) as embedding:
        errors = [KeyError("a key"), KeyboardInterrupt(), SystemExit(3), MemoryError(), tegvurn.Error("another's"), Falsy(), Empty()]
        for error in errors:
            thrown.append(error)
            tests.equal(raised_by(embedding.call, 0, "count") is error, True, f"{error!r} comes back")
            tests.equal(embedding.call(0, "count"), [5], f"a call after {error!r}")
        thrown.append(Unmade())
        tests.equal(type(raised_by(embedding.call, 0, "count")), AttributeError, "a trap without a code")
        thrown.append(tegvurn.HostTrap(7))
        trap = raised_by(embedding.call, 0, "count")
        found = (type(trap), trap.number, trap.name, trap.code, str(trap))
        tests.equal(found, (tegvurn.Trap, 9, "Host", 7, "host trap with code 7"), "a trap of a host function")
        thrown.append(KeyError("in a script"))
        tests.equal(str(raised_by(embedding.script, SCRIPT, {"a": MODULES["hosts"]})), "'in a script'", "an exception in a script")
        tests.equal(embedding.script(SCRIPT, {"a": MODULES["hosts"]}), tegvurn.Report(2, 0, 0, []), "a script after it")


def test_first_exception(tests):
    """After a host function has raised an exception, the same call runs no other host function, and raises the first exception."""
    raised = []

    def count(_):
        raised.append(Falsy(len(raised)))
        raise raised[-1]

    thrice = SCRIPT.replace(COUNT, ",".join([COUNT] * 3))
    with with_count(count) as embedding:
        error = raised_by(embedding.script, thrice, {"a": MODULES["hosts"]})
        tests.equal((error is raised[0], len(raised)), (True, 1), "three calls of a host function that raises, in a script")
        tests.equal(raised_by(embedding.call, 0, "count") is raised[1], True, "the exception of the next call")


# Wrong codes of traps, each with the exception that making a HostTrap with it raises.
WRONG_CODES = [("x", TypeError), (1.0, TypeError), (None, TypeError), (True, TypeError), (-1, ValueError), (2**32, ValueError)]


def test_trap_codes(tests):
    """Making a trap with a wrong code raises an exception."""
    codes = []

    def count(_):
        raise tegvurn.HostTrap(codes.pop())

    with with_count(count) as embedding:
        for code, error in WRONG_CODES:
            codes.append(code)
            tests.equal(type(raised_by(embedding.call, 0, "count")), error, f"a trap with the code {code!r}")
        codes.append(2**32 - 2)
        tests.equal(show_error(raised_by(embedding.call, 0, "count")), "trap 9 4294967294", "a trap after these")


class Interrupt(BaseException):
    """The exception that the signal handler raises."""


def interrupt(*_):
    """Handles a signal by an interrupt."""
    raise Interrupt


def test_interrupts(tests):
    """An interrupt at any time leaves the embedding as it was."""
    if sys.version_info < (3, 10):
        print("skipped: interrupts (before Python 3.10 one can leave a `with` block without its end)")
        return
    before, rng, count = signal.signal(signal.SIGALRM, interrupt), random.Random(1), 0
    with tegvurn.Embedding(fuel=7) as embedding:
        for _ in range(2_000):
            try:
                signal.setitimer(signal.ITIMER_REAL, rng.uniform(5e-6, 6e-5))
                while True:
                    embedding.fuel  # noqa: B018
            except Interrupt:
                count += embedding.fuel == 7
        tests.equal(count, 2_000, "calls after interrupts")
    signal.signal(signal.SIGALRM, before)


def test_results(tests):
    """Results that do not match the declared types raise exceptions or trap."""
    results = []
    with with_count(lambda _: results) as embedding:
        for wrong, error in (([], ValueError), ([1, 2], ValueError), ([2**32], ValueError), ([None], ValueError), (["a"], TypeError)):
            results[:] = wrong
            tests.equal(type(raised_by(embedding.call, 0, "count")), error, f"results {wrong}")
        results[:] = [-1]
        tests.equal(embedding.call(0, "count"), [2**32 - 1], "a result with a sign")
        results[:] = [tegvurn.Value("i64", 1)]
        tests.equal(show_error(raised_by(embedding.call, 0, "count")), "trap 9 4294967295", "a result of another type")


def test_busy(tests):
    """While a call of an embedding runs, the embedding is busy for its own host functions and for other threads."""
    found, begun = [], []

    def use():
        uses = [lambda: begun[0].call(0, "count"), lambda: begun[0].find_export(0, "count"), lambda: begun[0].fuel, begun[0].close]
        for function in uses:
            found.append(type(raised_by(function)))

    def count(_):
        use()
        on_thread(use)
        with tegvurn.Embedding(fuel=9) as other:
            found.append(other.fuel)
        return [1]

    with with_count(count) as embedding:
        begun.append(embedding)
        tests.equal(embedding.call(0, "count"), [1], "a call whose host function calls the embedding")
        tests.equal(found, [tegvurn.Busy] * 8 + [9], "what the host function found")


def test_threads(tests):
    """An embedding moves between threads, and threads that share it find it busy or get their results."""
    threads, made, results = [], [], []

    def count(memory):
        threads.append(threading.get_ident())
        return [len(threads)]

    def use():
        results.append((embedding.call(0, "count"), threading.get_ident()))

    on_thread(lambda: made.append(with_count(count)))
    embedding = made.pop()
    for _ in range(5):
        on_thread(use)
        use()
    tests.equal(results, [([k + 1], ident) for k, ident in enumerate(threads)], "calls from several threads")
    tests.equal(len(results), 10, "the number of these calls")

    def use_often():
        left = 50
        while left:
            try:
                embedding.fuel = 1_000
                left -= len(embedding.call(0, "count"))
            except tegvurn.Busy:
                pass

    sharing = [threading.Thread(target=lambda: results.append(raised_by(use_often))) for _ in range(4)]
    for thread in sharing:
        thread.start()
    for thread in sharing:
        thread.join()
    tests.equal((results[10:], len(threads)), (["gave None"] * 4, 210), "calls of threads that share an embedding")
    on_thread(embedding.close)
    tests.equal(type(raised_by(embedding.load, b"")), ValueError, "an embedding that another thread closed")


def with_log(log):
    """Returns an embedding with the instance of `lends`, in which `log` is this function."""
    hosts = {("env", "log"): ((["i32", "i32"], []), log), ("env", "fill"): ((["i32"] * 3, []), lambda *_: [])}
    embedding = tegvurn.Embedding(fuel=1_000, hosts=hosts)
    embedding.link(embedding.load(MODULES["lends"]))
    return embedding


# Uses of a memory of 65,536 bytes with `hello` at 8, each with what it returns or raises while the host function runs.
MEMORY_USES = [
    ("its length", lambda memory: (len(memory), memory.size), (65_536, 65_536)),
    ("bytes in it", lambda memory: memory.read(8, 5), b"hello"),
    ("no bytes at its end", lambda memory: memory.read(65_536, 0), b""),
    ("all of its bytes", lambda memory: len(memory.read(0, 65_536)), 65_536),
    ("a byte at its end", lambda memory: memory.read(65_536, 1), IndexError),
    ("no bytes after its end", lambda memory: memory.read(65_537, 0), IndexError),
    ("more bytes than it has", lambda memory: memory.read(0, 65_537), IndexError),
    ("2^64 bytes", lambda memory: memory.read(1, 2**64), IndexError),
    ("bytes before it", lambda memory: memory.read(-1, 1), IndexError),
    ("a negative count", lambda memory: memory.read(5, -1), IndexError),
    ("a place that is no integer", lambda memory: memory.read(1.0, 1), TypeError),
    ("a count that is none", lambda memory: memory.read(1, None), TypeError),
    ("written bytes", lambda memory: (memory.write(65_534, b"ab"), memory.read(65_533, 3)), (None, b"\0ab")),
    ("written bytes of an array", lambda memory: (memory.write(0, bytearray(b"cd")), memory.read(0, 3)), (None, b"cd\0")),
    ("no written bytes at its end", lambda memory: memory.write(65_536, b""), None),
    ("written bytes that reach over its end", lambda memory: memory.write(65_535, b"ab"), IndexError),
    ("written bytes before it", lambda memory: memory.write(-2, b"ab"), IndexError),
    ("a written text", lambda memory: memory.write(0, "ab"), TypeError),
    ("a written number", lambda memory: memory.write(0, 5), TypeError),
    ("a copy", copy.copy, TypeError),
    ("a deep copy", copy.deepcopy, TypeError),
    ("a pickle", pickle.dumps, TypeError),
    ("an unsafe view", lambda memory: bytes(memory.unsafe_view()[8:13]), b"hello"),
    ("a released unsafe view", lambda memory: memory.unsafe_view().release() or memory.read(8, 5), b"hello"),
    ("a byte written by an unsafe view", lambda memory: (memory.unsafe_view().__setitem__(9, 7), memory.read(9, 1)), (None, b"\7")),
]


def used(use, memory):
    """Returns what a use of a memory returns, or the type of what it raises."""
    try:
        return use(memory)
    except Exception as error:
        return type(error)


def test_memory(tests):
    """A host function reads and writes memory. After it has returned, every use raises an exception."""
    kept, found = [], []

    def log(memory, *_):
        kept[:] = [memory, memory.unsafe_view()]
        found[:] = [used(use, memory) for _, use, _ in MEMORY_USES]
        return []

    with with_log(log) as embedding:
        embedding.call(0, "log", 8, 5)
        for (name, use, wanted), result in zip(MEMORY_USES, found):
            tests.equal(result, wanted, f"{name}, in the host function")
            tests.equal(used(use, kept[0]), wanted if wanted is TypeError else ValueError, f"{name}, after the host function")
        tests.equal(used(lambda view: view[0], kept[1]), ValueError, "an unsafe view after the host function")
        embedding.call(0, "log_outside", 0, 0)
        tests.equal(found[0], (0, 0), "the length of the memory of a call from outside")
    tests.equal(used(lambda memory: memory.read(0, 1), kept[0]), ValueError, "a memory whose embedding is closed")


def test_kept_views(tests):
    """If an object still uses an unsafe view when the host function returns, the call raises BufferError. Other views are released."""
    kept = []

    def log(memory, *_):
        kept.extend([memory.unsafe_view(), memory.unsafe_view(), memory.unsafe_view()])
        kept.append(pickle.PickleBuffer(kept[1]))
        return []

    with with_log(log) as embedding:
        tests.equal(type(raised_by(embedding.call, 0, "log", 8, 5)), BufferError, "an object that uses an unsafe view for too long")
        found = [used(lambda view: view[0], view) for view in kept[::2]]
        tests.equal(found, [ValueError] * 2, "the other views")
        kept.clear()


# (module (import "env" "count" (func $count (result i32))) (memory 1) (func (export "run") (result i32)
#   i32.const 1 memory.grow drop call $count drop i32.const 1 memory.grow))
GROWS = bytes.fromhex(
    "0061736d010000000105016000017f020d0103656e7605636f756e74000003020100"
    "05030100010707010372756e00010a10010e00410140001a10001a410140000b"
)


def test_memory_in_use(tests):
    """A host function returns only when no other thread is copying."""
    ended = []

    def log(memory, *_):
        holds = threading.Event()

        def copy_slowly():
            with memory._lock:  # as a copy holds it
                holds.set()
                time.sleep(0.2)
                ended.append("the copy")

        threading.Thread(target=copy_slowly).start()
        holds.wait()
        return []

    with with_log(log) as embedding:
        embedding.call(0, "log", 8, 5)
        ended.append("the call")
    tests.equal(ended, ["the copy", "the call"], "a copy of another thread when a host function returns")


def test_memory_of_threads(tests):
    """Other threads use the memory beyond the end of host functions, while the module moves it. Each use ends with ValueError."""
    kept, ends = queue.SimpleQueue(), []

    def count(memory):
        kept.put(memory)
        return [len(ends)]

    def use():
        while (memory := kept.get()) is not None:
            try:
                while True:
                    memory.write(100, memory.read(100, 60_000))
            except ValueError as error:
                ends.append(str(error))

    threads = [threading.Thread(target=use, daemon=True) for _ in range(2)]
    for thread in threads:
        thread.start()
    with tegvurn.Embedding(fuel=10**9, hosts={("env", "count"): (NUMBER, count)}) as embedding:
        embedding.load(GROWS)
        for _ in range(100):
            embedding.call(embedding.link(0), "run")
    for _ in threads:
        kept.put(None)
    for thread in threads:
        thread.join()
    tests.equal((len(ends), len(set(ends))), (100, 1), "uses of memory by other threads")


def test_errors(tests):
    """Exceptions have the right fields and texts, and numbers that are out of range raise them."""
    with tegvurn.Embedding(fuel=10) as embedding:
        error = raised_by(embedding.load, MODULES["seven_bytes"])
        found = (type(error), error.number, error.name, error.place, error.at, error.text)
        tests.equal(found, (tegvurn.Refused, 1, "Malformed", "byte", 7, "malformed module at byte 7"), "a module that is malformed")
        tests.equal(str(error), "malformed module: the version is not 1, at offset 0x7", "why a module is malformed")
        error = raised_by(embedding.load, MODULES["seven_bytes"] + bytes(2**26))
        text = "module exceeds a limit: 67108871 bytes, and at most 67108864 are allowed"
        tests.equal((error.text, str(error)), ("a limit is passed", text), "why a module is too large")
        named = rows.section(7, [bytes([200, 1]) + b"n" * 200 + b"\0\7"])
        error = raised_by(embedding.load, b"\0asm\1\0\0\0" + named)
        text = f'invalid module: export 0 ("{"n" * 80}"): function 7 is not there, and there are 0'
        tests.equal(str(error), text, "why a module of a long name is invalid")
        error = raised_by(embedding.load, rows.exports_of_one_function([b"\xd7\x90" * 63] * 8))
        tests.equal(str(error), 'invalid module: export 1 ("' + "\u05d0" * 63 + '"): duplicate name', "an explanation beyond ASCII")
        instance = embedding.link(embedding.load(MODULES["traps"]))
        error = raised_by(embedding.call, instance, "div_s", 1, 0)
        found = (type(error), error.number, error.name, error.code, str(error))
        tests.equal(found, (tegvurn.Trap, 2, "DivideByZero", 0, "integer divide by zero"), "a division by zero")
        tests.equal(embedding.call(instance, "div_s", -7, 2), [2**32 - 3], "an argument with a sign")
        embedding.fuel = 0
        error = raised_by(embedding.call, instance, "div_s", 1, 1)
        tests.equal((type(error), error.number, error.name, str(error)), (tegvurn.Exhausted, 1, "Fuel", "out of fuel"), "no fuel")
        for wrong in (2**32, -(2**31) - 1, None):
            tests.equal(type(raised_by(embedding.call, instance, "div_s", wrong, 1)), ValueError, f"{wrong} as an i32")
        tests.equal(type(raised_by(setattr, embedding, "fuel", -1)), ValueError, "fuel below 0")
        tests.equal(type(raised_by(setattr, embedding, "fuel", 2**64)), ValueError, "fuel of 2^64")
        tests.equal(embedding.fuel, 0, "the fuel behind these")
        error = raised_by(embedding.call, instance, "nosuch", 1, None)
        tests.equal(show_error(error), "refused 9 0 0", "arguments of a function that is not there")
    tests.equal(type(raised_by(embedding.load, b"")), ValueError, "an embedding that is closed")
    tests.equal(type(raised_by(tegvurn.Embedding, 1, 2**32 + 1)), ValueError, "a depth of 2^32 + 1")
    tests.equal(type(raised_by(tegvurn.HostTrap, 2**32)), ValueError, "a code of 2^32")


# Modules whose links do not end well, each with the exception and its text.
LINKS = [
    ("starts_a_trap", tegvurn.Trap, "unreachable in the start function"),
    ("starts_a_failure", tegvurn.Trap, "host trap with code 7 in the start function"),
    ("data_behind_the_end", tegvurn.Trap, "out of bounds memory access in the start function or a segment"),
    ("entry_behind_the_end", tegvurn.Trap, "out of bounds table access in the start function or a segment"),
    ("starts_a_recursion", tegvurn.Exhausted, "out of depth in the start function"),
    ("starts_a_loop", tegvurn.Exhausted, "out of fuel in the start function or a segment"),
]


def test_links(tests):
    """The text of the end of a link tells what can have ended so."""
    with with_count(lambda _: [1]) as embedding:
        for name, error, text in LINKS:
            embedding.fuel = 100_000
            found = raised_by(embedding.link, embedding.load(MODULES[name]))
            tests.equal((type(found), str(found)), (error, text), f"a link of {name}")


# Wrong uses of an embedding that has the instance of `traps`, each with its exception.
WRONG_USES = [
    ("a call without a name", lambda embedding: embedding.call(0, None), TypeError),
    ("a call by a name of bytes", lambda embedding: embedding.call(0, b"div_s", 1, 1), TypeError),
    ("a call by a name with a surrogate", lambda embedding: embedding.call(0, "\udc80"), UnicodeEncodeError),
    ("a call of a negative instance", lambda embedding: embedding.call(-1, "div_s", 1, 1), ValueError),
    ("a call of an instance of 2^64", lambda embedding: embedding.call(2**64, "div_s", 1, 1), ValueError),
    ("a call of no instance", lambda embedding: embedding.call(None, "div_s", 1, 1), TypeError),
    ("a call with a float", lambda embedding: embedding.call(0, "div_s", 1.0, 1), TypeError),
    ("a call with a text", lambda embedding: embedding.call(0, "div_s", "1", 1), TypeError),
    ("a call with a float value", lambda embedding: embedding.call(0, "div_s", tegvurn.Value("f64", 1), 1), ValueError),
    ("a call with a value of no type", lambda embedding: embedding.call(0, "div_s", tegvurn.Value(None, 1), 1), ValueError),
    ("a text as a module", lambda embedding: embedding.load("text"), TypeError),
    ("a number as a module", lambda embedding: embedding.load(5), TypeError),
    ("nothing as a module", lambda embedding: embedding.load(None), TypeError),
    ("a link of a negative module", lambda embedding: embedding.link(-1), ValueError),
    ("a link of a float", lambda embedding: embedding.link(0.0), TypeError),
    ("a name of bytes for an instance", lambda embedding: embedding.register(0, b"name"), TypeError),
    ("a global without a name", lambda embedding: embedding.get_global(0, None), TypeError),
    ("the exports of a negative instance", lambda embedding: embedding.exports(-1), ValueError),
    ("an export of a negative instance", lambda embedding: embedding.find_export(-1, "div_s"), ValueError),
    ("an export of no instance", lambda embedding: embedding.find_export(None, "div_s"), TypeError),
    ("an export without a name", lambda embedding: embedding.find_export(0, None), TypeError),
    ("an export by a name with a surrogate", lambda embedding: embedding.find_export(0, "\udc80"), UnicodeEncodeError),
    ("a fuel that is no integer", lambda embedding: setattr(embedding, "fuel", 1.0), TypeError),
    ("a number as a script", lambda embedding: embedding.script(5), TypeError),
    ("a script with a file that is no bytes", lambda embedding: embedding.script("{}", {"a": "text"}), TypeError),
    ("a script with a file whose name is no text", lambda embedding: embedding.script("{}", {1: b""}), TypeError),
    ("a host function of a type f64", lambda _: tegvurn.Embedding(1, hosts={("m", "n"): (([], ["f64"]), len)}), ValueError),
    ("a host function without a name", lambda _: tegvurn.Embedding(1, hosts={("m", None): (([], []), len)}), TypeError),
    ("an embedding without fuel", lambda _: tegvurn.Embedding(None), TypeError),
    ("an embedding with negative pages", lambda _: tegvurn.Embedding(1, pages=-1), ValueError),
    ("an embedding that is made again", lambda embedding: embedding.__init__(1), TypeError),
    ("a copy", copy.copy, TypeError),
    ("a deep copy", copy.deepcopy, TypeError),
    ("a pickle", pickle.dumps, TypeError),
]


def test_wrong_uses(tests):
    """Wrong uses raise TypeError or ValueError, and change nothing."""
    embedding = tegvurn.Embedding(fuel=10)
    embedding.link(embedding.load(MODULES["traps"]))
    embedding.fuel = 10
    for name, use, error in WRONG_USES:
        tests.equal(type(raised_by(use, embedding)), error, name)
    tests.equal((embedding.fuel, embedding.call(0, "div_s", 6, 2)), (10, [3]), "the embedding after these")
    unknown = ctypes.c_uint(124)
    found = raised_by(tegvurn._read_types, ctypes.addressof(unknown), 1)
    tests.equal(str(found), str(raised_by(tegvurn._name_of, 124)), "an unknown type of the library")
    embedding.close()
    embedding.close()
    tests.equal(type(raised_by(embedding.load, b"")), ValueError, "the embedding after its end")


# The exports of `kinds`.
KINDS = {
    "function": tegvurn.FunctionType(["i32"], ["i64"]),
    "grow": tegvurn.FunctionType([], []),
    "table": tegvurn.TableType("funcref", 3, 9),
    "memory": tegvurn.MemoryType(1, 5),
    "global": tegvurn.GlobalType("i64", True),
}
# Instances and names of exports that do not exist, each with the number of the refusal.
NOT_FOUND = [(1, "function", 8), (2**64 - 1, "function", 8), (0, "functions", 9), (0, "", 9), (0, "function\0", 9), (0, "größe", 9)]


def linked(name):
    """Returns an embedding with the instance of a module."""
    pairs = [((host.module, host.name), ((host.parameters, host.results), answer_with(host))) for host in rows.StandardHosts().all()]
    embedding = tegvurn.Embedding(10_000, hosts=pairs)
    embedding.link(embedding.load(MODULES[name]))
    return embedding


def test_find_export(tests):
    """Each export is found by its name as it is listed."""
    with linked("kinds") as embedding:
        tests.equal(list(embedding.exports(0).items()), list(KINDS.items()), "the exports of each kind")
        for name, type_ in KINDS.items():
            found = embedding.find_export(0, name)
            tests.equal((type(found), found), (type(type_), type_), f"the export `{name}`")
        for instance, name, number in NOT_FOUND:
            error = raised_by(embedding.find_export, instance, name)
            tests.equal(show_error(error), f"refused {number} 0 0", f"the export {name!r} of the instance {instance}")
            error = raised_by(embedding.call, instance, name, None)
            tests.equal(show_error(error), f"refused {number} 0 0", f"a call of the export {name!r} of the instance {instance}")
        tests.equal(error.text, "nothing is exported under the name", "the text of an unknown export")
        embedding.call(0, "grow")
        tests.equal(embedding.find_export(0, "memory"), tegvurn.MemoryType(3, 5), "a memory after it has grown")


def test_shared_types(tests):
    """Functions that are declared at one place share one type."""
    with linked("shared_types") as embedding:
        exports = embedding.exports(0)
        for names in (("one", "two", "one_again"), ("add", "sum"), ("three", "three_again")):
            tests.equal(len({id(exports[name]) for name in names}), 1, f"the types of {names}")
        equal = [exports["one"] == exports[name] for name in ("four", "add", "three", "memory")]
        tests.equal(equal, [True, False, False, False], "the types of other exports")


def test_called_functions(tests):
    """A call finds its function without listing the exports, and only the functions that were found last are kept."""
    with linked("kinds") as embedding:
        listing, library = embedding._library.exports, embedding._library
        library.exports = None
        tests.equal([embedding.call(0, "function", 1) for _ in range(2)], [[1], [1]], "calls without a list of exports")
        library.exports = listing
        for name in ("table", "nosuch"):
            raised_by(embedding.call, 0, name)
        tests.equal(list(embedding._functions), [(0, "function")], "the functions that are kept")
    with tegvurn.Embedding(fuel=10_000) as embedding:
        embedding.link(embedding.load(rows.many_exports()))
        names = rows.MANY_NAMES[: tegvurn._MOST_KEPT + 10]
        errors = [raised_by(embedding.call, 0, name) for name in names]
        tests.equal({show_error(error) for error in errors}, {"refused 11 0 0"}, "calls of many functions")
        tests.equal([name for _, name in embedding._functions], names[10:], "the functions that are kept of many")
        tests.equal(show_error(raised_by(embedding.call, 0, names[0], *[0] * rows.MANY_TYPES)), "trap 1 0", "a call of another")


# A program that loads and links a module of many exports, finds the export that its argument names, calls it, and lists all exports. It
# prints the KiB of memory at the peak up to the call and up to the end, the seconds of processor time, and what it found.
LISTS = """
import sys, time, tegvurn

def memory(name):
    with open("/proc/self/status") as file:
        return next(int(line.split()[1]) for line in file if line.startswith(name))

module, name, calls = sys.stdin.buffer.read(), sys.argv[1], []
before, start = memory("VmRSS"), time.process_time()
with tegvurn.Embedding(fuel=10_000) as embedding:
    instance = embedding.link(embedding.load(module))
    found = embedding.find_export(instance, name)
    try:
        embedding.call(instance, name, *[0] * len(found.parameters))
    except tegvurn.Trap as trap:
        calls.append(memory("VmHWM") - before)
    exports = embedding.exports(instance)
    print(*calls, memory("VmHWM") - before, time.process_time() - start)
    types = {id(type_) for type_ in exports.values()}
    print(len(exports), list(exports).index(name), len(types), exports[name] == found, len(found.parameters), len(found.results))
"""
# Limits for the KiB up to the call and up to the end, and for the seconds. At the end, the names and their dictionary alone take 2,400 KiB.
MOST_CALLED, MOST_LISTED, MOST_SECONDS = 5_000, 19_500, 1.5


def test_many_exports(tests):
    """Many exports of one function share one type, so they take little memory and time, even when all are listed."""
    words = [sys.executable, "-B", "-c", LISTS, rows.MANY_NAMES[-1]]
    ran = subprocess.run(words, input=rows.many_exports(), capture_output=True, timeout=60, cwd=HERE)
    lines = ran.stdout.decode().split("\n")
    called, listed, seconds = map(float, lines[0].split())
    tests.equal((called < MOST_CALLED, listed < MOST_LISTED, seconds < MOST_SECONDS), (True,) * 3, f"what many exports take: {lines[0]}")
    tests.equal(lines[1:], ["29300 29299 1 True 1000 1000", ""], "many exports")


# The names of 120,000 exports, of 32 bytes each. The others are compared with the first. With the prefix of the second, a hash that folds
# 16 bytes at a time from a fixed seed is 0, whatever follows.
NAMES = {
    "names at random": lambda k: b"%032x" % (k * 0x9E3779B97F4A7C15 % 2**64),
    "names that collide": lambda k: b"uraablssepsjefdus'&g\"S/ %08d" % k,
    "names in order": lambda k: b"%032d" % k,
    "names in reverse": lambda k: b"%032d" % (120_000 - k),
    "names in turn": lambda k: b"%032d" % (k if k % 2 else 120_000 - k),
}


def load_seconds(embedding, module):
    """Returns the seconds of processor time that loading a module takes, the best of three."""
    seconds = []
    for _ in range(3):
        start = time.process_time()
        embedding.load(module)
        seconds.append(time.process_time() - start)
    return min(seconds)


def test_export_names(tests):
    """The names of exports do not affect how long a load takes."""
    with tegvurn.Embedding(fuel=0) as embedding:
        seconds = {
            name: load_seconds(embedding, rows.exports_of_one_function([make(k) for k in range(120_000)])) for name, make in NAMES.items()
        }
    for name, taken in seconds.items():
        tests.equal(taken <= 3 * seconds["names at random"] + 0.1, True, f"{name}: {seconds}")


def test_many_imports(tests):
    """A module of 200 kB imports from one of 600 kB. If each import searched all exports in order, the link would take seconds."""
    names = [b"%07d" % k for k in range(60_000)]
    with tegvurn.Embedding(fuel=0) as embedding:
        exporting = embedding.link(embedding.load(rows.exports_of_one_function(names)))
        embedding.register(exporting, "a")
        importing = embedding.load(rows.imports_of_functions(b"a", names[:-17_000:-1]))
        start = time.process_time()
        embedding.link(importing)
        seconds = time.process_time() - start
    tests.equal(seconds < 0.3, True, f"many imports: {seconds}")


def test_ends(tests):
    """How a call ended is read correctly in every form that the library may write."""
    ends = [
        (tegvurn._BAD_POINTER, None, (tegvurn.Error, 8, "BadPointer", "a pointer is null")),
        (tegvurn._BUSY, None, (tegvurn.Busy, 6, "Busy", "the embedding is busy")),
        (99, None, (tegvurn.Error, 0, "", "the call was not done")),
        (tegvurn._REFUSED, tegvurn._End(number=3, place=99, text=b"\xff"), (tegvurn.Refused, 3, "", "\ufffd")),
        (tegvurn._OVER, tegvurn._End(name=b"Over"), (tegvurn.Error, 0, "Over", "")),
    ]
    for status, end, wanted in ends:
        error = tegvurn._error(status, end and ctypes.pointer(end))
        tests.equal((type(error), error.number, error.name, str(error)), wanted, f"an end of status {status}")


def count_mappings():
    """Returns the number of mappings of this process."""
    with open("/proc/self/maps", encoding="utf-8") as file:
        return len(file.readlines())


def on_thread(function):
    """Runs a function on a thread of its own."""
    thread = threading.Thread(target=function)
    thread.start()
    thread.join()


def drop(embeddings):
    """Drops embeddings, including those that are in cycles."""
    embeddings.clear()
    gc.collect()


def make_simply():
    """Returns an embedding that is freed as soon as it is dropped."""
    return with_count(lambda _: [1])


def make_cycle():
    """Returns an embedding that only the garbage collector frees."""
    embedding = with_count(lambda _: [embedding.fuel])
    return embedding


MAKERS = [(make_simply, "embeddings"), (make_cycle, "embeddings in cycles")]
MANY = 50


def test_drops(tests):
    """Dropped embeddings are freed by the next call of their thread at the latest."""
    made = []
    make_simply().close()
    before = count_mappings()
    for make, name in MAKERS:
        made.extend(make() for _ in range(MANY))
        drop(made)
        tests.equal(count_mappings() - before < MANY, True, f"{name} that are dropped")
        made.extend(make() for _ in range(MANY))
        on_thread(lambda: drop(made))
        tegvurn.Embedding(fuel=1).close()
        tests.equal(count_mappings() - before < MANY, True, f"{name} that another thread drops, after a call")


def test_busy_drops(tests):
    """An embedding that is busy when it is dropped keeps its callbacks, and is freed by a later call of any embedding."""
    embedding, other = with_count(lambda _: [1]), tegvurn.Embedding(fuel=7)
    library, callback, busy = embedding._library, weakref.ref(embedding._kept[0][2]), [True, True]
    free, before = library.free, count_mappings()
    library.free = lambda at: tegvurn._BUSY if busy and busy.pop() else free(at)
    del embedding
    tests.equal((len(library.dropped), callback() is None), (1, False), "a busy embedding that is dropped")
    tests.equal((other.fuel, len(library.dropped), callback() is None), (7, 1, False), "a call while it is busy")
    tests.equal((other.fuel, len(library.dropped), callback() is None), (7, 0, True), "a call when it is no longer busy")
    tests.equal(count_mappings() < before, True, "its memory")
    library.free = free
    other.close()


# A program that ends with embeddings that are idle, in cycles, of a thread that has ended, of a thread that still runs, and half made.
AT_EXIT = """
import threading, tegvurn
def make():
    embedding = tegvurn.Embedding(1_000, hosts={("env", "f"): (([], []), lambda _: embedding.fuel)})
    return embedding
kept, made = [make(), tegvurn.Embedding(1)], threading.Event()
kept[0].itself = kept
def thread():
    kept.append(make())
    mine = make()
    made.set()
    threading.Event().wait()
threading.Thread(target=thread, daemon=True).start()
made.wait()
ended = threading.Thread(target=lambda: kept.append(make()))
ended.start()
ended.join()
class Last:
    def __del__(self):
        kept[1].fuel
last = Last()
try:
    tegvurn.Embedding(nosuch=1)
except TypeError:
    tegvurn.Embedding.__new__(tegvurn.Embedding)
"""


def test_exit(tests):
    """The end of the program frees what is left, and prints nothing."""
    ran = subprocess.run([sys.executable, "-B", "-c", AT_EXIT], capture_output=True, text=True, timeout=60, cwd=HERE)
    tests.equal((ran.stdout, ran.stderr, ran.returncode), ("", "", 0), "a program that ends with embeddings")


def test_drops_by_other_threads(tests):
    """Embeddings that another thread drops are freed at once, even if their own thread has ended."""
    made = []
    before = count_mappings()
    for make, name in MAKERS:
        made.extend(make() for _ in range(MANY))
        on_thread(lambda: drop(made))
        tests.equal(count_mappings() - before < MANY, True, f"{name} that another thread drops")
        on_thread(lambda: made.extend(make() for _ in range(MANY)))  # noqa: B023
        drop(made)
        tests.equal(count_mappings() - before < MANY, True, f"{name} whose thread has ended")


# (module
#   (import "env" "memory" (memory 1))
#   (import "env" "table" (table 2 funcref))
#   (import "env" "counter" (global $counter (mut i32)))
#   (import "env" "limit" (global $limit i64))
#   (import "env" "ask" (func $ask (param i32) (result i32)))
#   (func (export "run") (param i32) (result i32)
#     (global.set $counter (i32.add (global.get $counter) (i32.const 1)))
#     (call $ask (local.get 0)))
#   (func (export "entries") (result i32) table.size 0)
#   (export "counter" (global $counter))
#   (export "limit" (global $limit)))
GUEST = bytes.fromhex(
    "0061736d01000000010a0260017f017f6000017f02430503656e76066d656d6f727902000103656e76057461626c650170000203656e76"
    "07636f756e746572037f0103656e76056c696d6974037e0003656e760361736b000003030200010723040372756e000107656e74726965"
    "73000207636f756e7465720300056c696d697403010a15020d00230041016a2400200010000b0500fc10000b"
)
OBJECTS = {
    "counter": (tegvurn.GlobalType("i32", True), 41),
    "memory": tegvurn.MemoryType(2, None),
    "limit": (tegvurn.GlobalType("i64", False), -5),
    "table": tegvurn.TableType("funcref", 3, 30),
    "null": (tegvurn.GlobalType("externref", False), None),
}
# Objects that no provider makes, each with the exception.
WRONG_OBJECTS = [
    (("a", tegvurn.MemoryType(-1, None)), ValueError),
    (("a", tegvurn.MemoryType(1.0, None)), TypeError),
    (("a", tegvurn.TableType("i33", 1, None)), ValueError),
    (("a", (tegvurn.GlobalType("i32", True), 2**32)), ValueError),
    (("a", (tegvurn.GlobalType("i32", True), None)), ValueError),
    (("a", ("i32", 1)), TypeError),
    (("a", tegvurn.FunctionType([], [])), TypeError),
    (("a", None), TypeError),
    ((None, tegvurn.MemoryType(1, None)), TypeError),
]


def test_providers(tests):
    """A guest imports a memory, a table, globals and a host function by one name."""

    def ask(memory, byte):
        memory.write(0, bytes([byte]))
        return [len(memory)]

    i32, hosts = tegvurn.FunctionType(["i32"], ["i32"]), {}
    hosts["host", "ask"], hosts["other", "ask"], hosts["host", "next"] = (i32, ask), (NUMBER, ask), (i32, lambda _, number: [number + 1])
    with tegvurn.Embedding(hosts=hosts, windows=True) as embedding:
        provider = embedding.provide("env", functions_of="host", objects=OBJECTS)
        guest = embedding.link(embedding.load(GUEST))
        tests.equal(embedding.call(guest, "run", 9), [131_072], "a call of the guest")
        tests.equal(tegvurn.Window(embedding, provider).read(0, 1), b"\x09", "the memory of the provider")
        found = [embedding.call(guest, "entries"), embedding.get_global(provider, "counter"), embedding.get_global(guest, "limit")]
        tests.equal(found, [[3], 42, 2**64 - 5], "the table and the globals")
        types = {name: object_[0] if isinstance(object_[0], tegvurn.GlobalType) else object_ for name, object_ in OBJECTS.items()}
        tests.equal(embedding.exports(provider), {"ask": i32, "next": i32, **types}, "the exports of the provider")
        tests.equal(embedding.call(provider, "next", 1), [2], "a host function of the provider")
        error = raised_by(embedding.provide, "host")
        tests.equal((show_error(error), str(error)), ("refused 12 0 0", "a host function has the name"), "the name of a host function")
        large = tegvurn.MemoryType(1_025, None)
        tests.equal(show_error(raised_by(embedding.provide, "env", None, {"m": large})), "refused 3 0 0", "a memory that is too large")
        for pair, error in WRONG_OBJECTS:
            tests.equal(type(raised_by(embedding.provide, "env", None, [pair])), error, f"the object {pair}")
        tests.equal(type(raised_by(embedding.provide, None)), TypeError, "a provider without a name")


# Uses of a window on a memory of 65,536 bytes, each with what it returns or raises.
WINDOW_USES = [
    ("its length", len, 65_536),
    ("no bytes at its end", lambda window: window.read(65_536, 0), b""),
    ("all of its bytes", lambda window: len(window.read(0, 65_536)), 65_536),
    ("a byte at its end", lambda window: window.read(65_536, 1), IndexError),
    ("no bytes after its end", lambda window: window.read(65_537, 0), IndexError),
    ("2^64 bytes", lambda window: window.read(1, 2**64), IndexError),
    ("bytes before it", lambda window: window.read(-1, 1), IndexError),
    ("a negative count", lambda window: window.read(5, -1), IndexError),
    ("a place that is no integer", lambda window: window.read(1.0, 1), TypeError),
    ("written bytes", lambda window: (window.write(65_534, b"ab"), window.read(65_533, 3)), (None, b"\0ab")),
    ("written bytes of an array", lambda window: (window.write(0, bytearray(b"c\0d")), window.read(0, 4)), (None, b"c\0d\0")),
    ("written bytes that reach over its end", lambda window: window.write(65_535, b"xy"), IndexError),
    ("written bytes before it", lambda window: window.write(-2, b"xy"), IndexError),
    ("a written text", lambda window: window.write(0, "ab"), TypeError),
    ("its last bytes after these", lambda window: window.read(65_534, 2), b"ab"),
]


def test_windows(tests):
    """A host reads and writes the memory of an instance between calls."""
    with tegvurn.Embedding(fuel=100_000, windows=True) as embedding:
        instance = embedding.link(embedding.load(MODULES["upper"]))
        window, text = tegvurn.Window(embedding, instance), "größer als 3".encode()
        (at,) = embedding.call(instance, "allocate", len(text))
        window.write(at, text)
        embedding.call(instance, "upper", at, len(text))
        tests.equal(window.read(at, len(text)).decode(), "GRößER ALS 3", "a text that is passed by pointer")
        for name, use, wanted in WINDOW_USES:
            tests.equal(used(use, window), wanted, f"{name}, by a window")
        embedding.fuel = 0
        tests.equal((window.read(at, 2), embedding.fuel), (b"GR", 0), "a window without fuel")
        embedding.fuel = 2**64 - 1
        tests.equal((window.write(at, b"g"), embedding.fuel), (None, 2**64 - 1), "a window with the most fuel")
        for number, name, refused in ((9, "memory", 8), (0, "nosuch", 9), (0, "upper", 10)):
            error = raised_by(tegvurn.Window, embedding, number, name)
            tests.equal(show_error(error), f"refused {refused} 0 0", f"a window on {name} of the instance {number}")
        found = []
        on_thread(lambda: found.append(window.read(at, 1)))
        tests.equal(found, [b"g"], "a window on another thread")
    tests.equal(type(raised_by(window.read, 0, 1)), ValueError, "a window of an embedding that is closed")
    with tegvurn.Embedding() as embedding:
        instance = embedding.link(embedding.load(MODULES["upper"]))
        error = raised_by(tegvurn.Window, embedding, instance)
        tests.equal((show_error(error), error.text), ("refused 6 2 1", "import 1 is unknown"), "a window that the embedding does not allow")


# Functions of the header that the package does not need. It never leaves a callback, and an embedding without a quota has the largest one.
NOT_USED = {"abandon", "new", "version"}


def test_header(tests):
    """The functions and structures of the package are those of the header."""
    with open(os.path.join(HERE, "../c/tegvurn.h"), encoding="utf-8") as file:
        header = re.sub(r"/\*.*?\*/", "", file.read(), flags=re.DOTALL)
    found = re.findall(r"TEGVURN_API [^()]*?tegvurn_(\w+)\(([^)]*)\)", header)
    declared = {name: args.count(",") + (args != "void") for name, args in found}
    used = {name: count for name, count in declared.items() if name not in NOT_USED}
    tests.equal({name: len(types) for name, types in tegvurn._FUNCTIONS.items()}, used, "the functions of the header")
    for name in ("Text", "End", "Config", "HostCall", "Host", "Export", "Provided", "File", "Report"):
        in_c = re.sub("(?<=.)([A-Z])", r"_\1", name).lower()
        fields = re.search(rf"typedef struct tegvurn_{in_c} {{(.*?)}} tegvurn_{in_c};", header, re.DOTALL)[1]
        wanted = re.findall(r"(\w+)(?:\[\w+\])?;", fields)
        tests.equal([field[0] for field in getattr(tegvurn, "_" + name)._fields_], wanted, f"the fields of tegvurn_{in_c}")


def test_version(tests):
    """The package and the library have the version of the repository."""
    with open(os.path.join(HERE, "../../VERSION"), encoding="utf-8") as file:
        version = file.read().strip()
    version_of = ctypes.CDLL(os.environ["TEGVURN_LIBRARY"]).tegvurn_version
    version_of.restype = ctypes.c_char_p
    tests.equal((tegvurn.__version__, version_of().decode()), (version, version), "the version")


def arguments_of(function):
    """Returns the names of a function's arguments, and how many have defaults."""
    args = function.args
    rest = [arg.arg for arg in (args.vararg, args.kwarg) if arg]
    return [arg.arg for arg in args.args] + rest, len(args.defaults)


def declared_in(path):
    """Returns the public classes of a file, each with the arguments of its methods."""
    with open(path, encoding="utf-8") as file:
        classes = [node for node in ast.parse(file.read()).body if isinstance(node, ast.ClassDef) and not node.name.startswith("_")]
    is_public = lambda name: not name.startswith("_") or name.endswith("__")  # noqa: E731
    methods = lambda node: [it for it in node.body if isinstance(it, ast.FunctionDef) and is_public(it.name)]  # noqa: E731
    return {node.name: [(it.name, *arguments_of(it)) for it in methods(node)] for node in classes}


def test_types(tests):
    """The classes, methods and arguments of the package are those that its stub declares."""
    stub = declared_in(os.path.join(HERE, "tegvurn/__init__.pyi"))
    for name, methods in declared_in(os.path.join(HERE, "tegvurn/__init__.py")).items():
        tests.equal(stub.pop(name, None), methods, f"the types of {name}")
    fields = {name: list(getattr(tegvurn, name)._fields) for name in stub}
    wanted = ["FunctionType", "GlobalType", "MemoryType", "Report", "TableType", "Value"]
    tests.equal(sorted(fields), wanted, "the tuples of the stub")


# (module
#   (table 1 funcref) (memory 1)
#   (func $f (export "frames") (param i32) local.get 0 if local.get 0 i32.const 1 i32.sub call $f end)
#   (func (export "pages") (param i32) (result i32) local.get 0 memory.grow)
#   (func (export "entries") (param i32) (result i32) ref.null func local.get 0 table.grow 0))
BOUNDED = b"\0asm\1\0\0\0" + b"".join(
    rows.section(number, items)
    for number, items in [
        (1, [b"\x60\1\x7f\0", b"\x60\1\x7f\1\x7f"]),
        (3, [b"\0", b"\1", b"\1"]),
        (4, [b"\x70\0\1"]),
        (5, [b"\0\1"]),
        (7, [b"\6frames\0\0", b"\5pages\0\1", b"\7entries\0\2"]),
        (10, [b"\x0e\0 \0\4@ \0A\1k\x10\0\x0b\x0b", b"\6\0 \0@\0\x0b", b"\x09\0\xd0p \0\xfc\x0f\0\x0b"]),
    ]
)


def test_defaults(tests):
    """The defaults are those of docs/SPECIFICATION.md."""
    with tegvurn.Embedding() as embedding:
        tests.equal(embedding.fuel, 1_000_000_000, "the default fuel")
        embedding.link(embedding.load(BOUNDED))
        tests.equal(embedding.call(0, "frames", 1_023), [], "1,024 frames")
        error = raised_by(embedding.call, 0, "frames", 1_024)
        tests.equal((type(error), error.number), (tegvurn.Exhausted, tegvurn.ExhaustionNumber.DEPTH), "1,025 frames")
        for name, most in (("pages", 1_024), ("entries", 1_000_000)):
            found = [embedding.call(0, name, more) for more in (most - 1, 1)]
            tests.equal(found, [[1], [2**32 - 1]], f"{most} {name}, and one more")


def test_numbers(tests):
    """The classes of numbers name the numbers of errors."""
    with with_count(lambda _: [1]) as embedding:
        for number, name, function in (
            (tegvurn.RefusalNumber.UNKNOWN_EXPORT, "UnknownExport", lambda: embedding.call(0, "nosuch")),
            (tegvurn.RefusalNumber.MALFORMED, "Malformed", lambda: embedding.load(b"")),
            (tegvurn.TrapNumber.HOST, "Host", lambda: embedding.call(0, "fail", 7)),
        ):
            error = raised_by(function)
            tests.equal((error.number, error.name), (number, name), f"the number of {name}")
        embedding.fuel = 0
        tests.equal(raised_by(embedding.call, 0, "count").number, tegvurn.ExhaustionNumber.FUEL, "the number of an exhaustion")


# A program that makes an embedding with a quota, loads, links and calls modules that would take much more, and links another one many times.
# It prints the KiB of memory at the peak, the seconds of processor time, and how the calls ended.
BOUNDS = """
import sys, time, rows, tegvurn

def ended(function, *args):
    try:
        return function(*args)
    except tegvurn.Error as error:
        return error.name

def memory(name):
    with open("/proc/self/status") as file:
        return next(int(line.split()[1]) for line in file if line.startswith(name))

modules = rows.read_rows()[0]
before, start = memory("VmRSS"), time.process_time()
with tegvurn.Embedding(depth=1_000, quota=rows.QUOTA) as embedding:
    ends = [ended(embedding.link, embedding.load(modules[name])) for name in rows.HOSTILE]
    ends.append(ended(embedding.call, 0, "f"))
with tegvurn.Embedding(quota=rows.QUOTA) as embedding:
    page = embedding.load(rows.PAGE)
    links = [ended(embedding.link, page) for _ in range(rows.PAGE_LINKS)]
    print(memory("VmHWM") - before, time.process_time() - start)
    print(*ends, sum(link != "OutOfMemory" for link in links), links[-1], embedding.quota_left)
"""


def test_quota(tests):
    """A quota bounds what modules, instances and calls hold."""
    ran = subprocess.run([sys.executable, "-B", "-c", BOUNDS], capture_output=True, text=True, timeout=60, cwd=HERE)
    lines = ran.stdout.split("\n")
    held, seconds = map(float, lines[0].split())
    tests.equal((held < 40_000, seconds < 5), (True, True), f"what modules take with a quota: {lines[0]}")
    linked, left = divmod(rows.QUOTA - rows.PAGE_LOADED, rows.PAGE_LINKED)
    tests.equal(lines[1:], [f"OutOfMemory OutOfMemory 0 Memory {linked} OutOfMemory {left}", ""], "modules with a quota")
    with tegvurn.Embedding(quota=64 * 8) as embedding:
        error = raised_by(embedding.load, MODULES["sum"])
        left, last = embedding.quota_left, embedding._library.last(embedding._at).contents.status
        tests.equal((error.number, left, last), (tegvurn.RefusalNumber.OUT_OF_MEMORY, 64 * 8, tegvurn._REFUSED), "a quota that is read")
        tests.equal((embedding.load(MODULES["empty"]), embedding.quota_left), (0, 0), "a module with just the quota")
    with tegvurn.Embedding() as embedding:
        tests.equal(embedding.quota_left, 2**64 - 1, "no quota")
        tests.equal(type(raised_by(setattr, embedding, "quota_left", 5)), AttributeError, "a quota that is set later")
    for quota, error in ((-1, ValueError), (2**64, ValueError), ("5", TypeError), (5.0, TypeError), (True, TypeError)):
        tests.equal(type(raised_by(tegvurn.Embedding, 1, 1, 1, 1, (), None, False, quota)), error, f"a quota of {quota!r}")


# (module (import "m" "f" (func (result i32))) (export "f" (func 0)))
IMPORTED = b"\0asm\1\0\0\0" + rows.section(1, [b"\x60\0\1\x7f"]) + rows.section(2, [b"\1m\1f\0\0"]) + rows.section(7, [b"\1f\0\0"])


def test_later_types(tests):
    """A host function keeps the types that it was defined with."""
    results = ["i32"]
    with tegvurn.Embedding(hosts={("m", "f"): (([], results), lambda _: [5, 6])}) as embedding:
        embedding.link(embedding.load(IMPORTED))
        results.append("i32")
        tests.equal(type(raised_by(embedding.call, 0, "f")), ValueError, "a result too many, after the list of types has grown")


def test_many(tests):
    """Embeddings are independent of one another."""
    embeddings = [tegvurn.Embedding(fuel=number) for number in range(20)]
    for embedding in embeddings[::2]:
        embedding.close()
    tests.equal([embedding.fuel for embedding in embeddings[1::2]], list(range(1, 20, 2)), "twenty embeddings")
    for embedding in embeddings:
        embedding.close()


def test_example(tests):
    """The plug-in host prints what it must."""
    ran = subprocess.run([sys.executable, "-B", os.path.join(HERE, "example.py")], capture_output=True, text=True, timeout=60)
    with open(os.path.join(HERE, "example.out"), encoding="utf-8") as file:
        tests.equal((ran.stdout, ran.stderr, ran.returncode), (file.read(), "", 0), "example.py")


def main():
    """Runs all tests, and returns the status."""
    tests = rows.Tests()
    for name, test in list(globals().items()):
        if name.startswith("test_"):
            test(tests)
    return tests.end()


if __name__ == "__main__":
    sys.exit(main())
