"""Runs the commands of a command file on `wasmrun`, and tells what came of each."""
import collections
import json
import os
import re
import subprocess
import tempfile

from suite.decisions import MALFORMED, decision_on
from suite.files import SuiteError
from suite.plan import FLOATS, plan
from suite.spectest import spectest

FAILED = re.compile(r"line (\d+): failed")
SUMS = re.compile(r"passed (\d+) failed (\d+) skipped 0")
SECONDS = 600
# What came of the commands of a file: the number of those that passed; of those that failed and of those that are decided otherwise, the
# line and a text; and the numbers of those that were skipped, by the reason.
Result = collections.namedtuple("Result", "passed failed decided skipped")


def run(words):
    """Runs a program to its end. Returns its status, its standard output and its standard error."""
    try:
        done = subprocess.run(words, capture_output=True, timeout=SECONDS, encoding="utf-8", errors="replace", check=False)
    except subprocess.TimeoutExpired:
        raise SuiteError(f"no end within {SECONDS} s: {' '.join(words)}") from None
    return done.returncode, done.stdout, done.stderr.strip()


def write(folder, name, data):
    """Writes bytes to a file in a folder. Returns its path."""
    path = os.path.join(folder, name)
    with open(path, "wb") as file:
        file.write(data)
    return path


def module_name(line):
    """Returns the name of the file of a step's module."""
    return f"{line}.wasm"


def write_script(steps, rewrites, folder):
    """Writes a command file of these steps, with their modules. Returns its path, and the number of its commands.

    The line of a command is the number of its step, from 1, or 0 for the commands before the first step. It also names the module.
    """
    commands = []
    if rewrites:
        write(folder, module_name(0), spectest())
        commands = [{"type": "module", "line": 0, "filename": module_name(0)}, {"type": "register", "line": 0, "as": "spectest"}]
    for line, step in enumerate(steps, 1):
        commands.append({**step.command, "line": line})
        if step.data is not None:
            write(folder, module_name(line), step.data)
            commands[-1]["filename"] = module_name(line)
    return write(folder, "script.json", json.dumps({"commands": commands}).encode()), len(commands)


def failed_lines(program, path, count):
    """Runs a command file with this many commands. Returns the lines of those that failed."""
    status, out, err = run([program, "script", path])
    lines = out.splitlines()
    sums = SUMS.fullmatch(lines[-1]) if lines else None
    failed = [int(found.group(1)) for found in map(FAILED.fullmatch, lines) if found]
    if sums is None or sum(map(int, sums.groups())) != count or 0 in failed:
        raise SuiteError(f"{program} script ended with status {status}: {err or lines[-1:]}")
    return failed


def explain(program, step, path):
    """Returns what a failed command is, and the text of the decision by which it fails, or None. Its module is at a path."""
    command = step.command
    if step.data is None:
        return f"{command['type']} {command.get('action', {}).get('field', '')}", None
    _, out, err = run([program, "check", path])
    text = f"{command['type']} {command['filename']} ({command.get('text', '')}): {err or out.strip()}"
    return text, decision_on(command, step.data, err)


def with_malformed(program, step, folder):
    """Returns a step. It is not skipped if its module has floats and must be malformed, and is refused for that."""
    is_in_doubt = step.command["type"] == "assert_malformed" and step.reason == FLOATS
    if is_in_doubt and run([program, "check", write(folder, "malformed.wasm", step.data)])[2] == MALFORMED:
        return step._replace(reason=None)
    return step


def run_commands(program, commands, folder, rewrites):
    """Runs the commands of a file whose modules are in a folder. Returns their result."""
    failed, decided = [], []
    with tempfile.TemporaryDirectory() as scratch:
        steps = [with_malformed(program, step, scratch) for step in plan(commands, folder, rewrites)]
        skipped = collections.Counter(step.reason for step in steps if step.reason)
        kept = [step for step in steps if not step.reason]
        lines = failed_lines(program, *write_script(kept, rewrites, scratch))
        for line in lines:
            step = kept[line - 1]
            what, decision = explain(program, step, os.path.join(scratch, module_name(line)))
            (decided if decision else failed).append((step.command["line"], decision or what))
    return Result(len(kept) - len(lines), failed, decided, skipped)
