"""Runs a program on an input, as a native program or as a module, and records how it ended and what it cost."""
import collections
import hashlib
import os
import re
import subprocess
import tempfile

# How a run ended: its status, output, standard error, and processor seconds.
Ended = collections.namedtuple("Ended", "status output said seconds")
# What is kept of a run: digests of input and output, the status, the fuel, and the pages of the memory.
Kept = collections.namedtuple("Kept", "input output status fuel pages")
HOST_STATUSES = 100  # from here on, a status is that of the host
COSTS = re.compile(r"^fuel (\d+) pages (\d+)$", re.MULTILINE)
PAGE = 65_536


def ended(words, data, **variables):
    """Runs a command on an input, with some variables in its environment. Returns how it ended."""
    with tempfile.TemporaryFile() as given, tempfile.TemporaryFile() as taken, tempfile.TemporaryFile() as said:
        given.write(data)
        given.seek(0)
        process = subprocess.Popen(words, stdin=given, stdout=taken, stderr=said, env={**os.environ, "COSTS": "1", **variables})
        _, status, used = os.wait4(process.pid, 0)
        process.returncode = os.waitstatus_to_exitcode(status)
        taken.seek(0)
        said.seek(0)
        return Ended(process.returncode, taken.read(), said.read().decode(errors="replace"), used.ru_utime + used.ru_stime)


def digest(data):
    """Returns the first 32 hexadecimal digits of a SHA-256."""
    return hashlib.sha256(data).hexdigest()[:32]


def kept_of(data, found):
    """Returns what is kept of a run. The costs are None if the host did not print them."""
    costs = COSTS.search(found.said)
    fuel, pages = (int(costs.group(1)), int(costs.group(2))) if costs else (None, None)
    return Kept(digest(data), digest(found.output), found.status, fuel, pages)


def fault_of(native, found):
    """Returns how a run as a module differs from the native one, or None."""
    if found.status < 0 or found.status >= HOST_STATUSES:
        return f"status {found.status}: {found.said.strip()[:200]}"
    if found.status != native.status:
        return f"status {found.status}, and natively {native.status}"
    if found.output != native.output:
        return f"{len(found.output):,} bytes of output differ from {len(native.output):,} native ones"
    return None
