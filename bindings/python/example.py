#!/usr/bin/env python3
"""A plug-in host: it calls the exports of a plug-in, each with a limit of fuel, and provides two host functions.

Usage: `python3 example.py [PLUGIN]`. It does the same as crates/plugin_host. Without an argument, it runs the plug-in of that crate, whose
source text is next to the plug-in.
"""
import os
import sys

import tegvurn

PLUGIN = os.path.join(os.path.dirname(os.path.abspath(__file__)), "../../crates/plugin_host/data/plugin.wasm")
CALLS = [("greet",), ("greet",), ("divide", 1, 0), ("write_outside",), ("spin",), ("nosuch",)]


class Host:
    """The host functions: one counts its calls, and the other copies a text from the plug-in's memory."""

    def __init__(self):
        self.calls, self.text = 0, b""

    def count(self, _):
        self.calls += 1
        return [self.calls]

    def write(self, memory, start, length):
        try:
            self.text += memory.read(start, length)
        except IndexError:
            raise tegvurn.HostTrap(1) from None
        return []

    def functions(self):
        """Returns the host functions with their types."""
        return {
            ("host", "count"): (tegvurn.FunctionType([], ["i32"]), self.count),
            ("host", "write"): (tegvurn.FunctionType(["i32", "i32"], []), self.write),
        }


def call_export(embedding, plugin, name, *args):
    """Calls the plug-in with its own limit of fuel, and returns the results or the error."""
    embedding.fuel = 1_000
    try:
        return embedding.call(plugin, name, *args)
    except tegvurn.Error as error:
        return error


def main():
    """Runs a plug-in."""
    host = Host()
    with open(sys.argv[1] if len(sys.argv) > 1 else PLUGIN, "rb") as file:
        module = file.read()
    with tegvurn.Embedding(fuel=1_000, depth=100, pages=16, entries=100, hosts=host.functions()) as embedding:
        plugin = embedding.link(embedding.load(module))
        for name, *args in CALLS:
            print(f"{name}: {call_export(embedding, plugin, name, *args)}")
    print(host.text.decode())


if __name__ == "__main__":
    main()
