"""Embeddings for the rows that are served by `wasmserve` over pipes. Each of them is a process."""
import os

import client
import rows

BUILT = os.path.join(os.path.dirname(os.path.abspath(__file__)), "../../crates/wasmserve/out/wasmserve")


def program():
    """Returns the path of the program that the variable WASMSERVE names, or of the one that the gate has built."""
    return os.environ.get("WASMSERVE", BUILT)


def answer_with(function):
    """Returns a host function of the rows as one of the client."""

    def answer(memory, *args):
        try:
            return function(memory, *(number for _, number in args))
        except rows.HostTrap as trap:
            raise client.Trap(*trap.args) from None

    return answer


def define(conversation, host):
    """Defines a host function of the rows, and returns the reply."""
    return conversation.define(host.module, host.name, host.parameters, host.results, answer_with(host.function))


def show_reply(name, *fields):
    """Returns a reply in the format of the rows."""
    if name == "values":
        return rows.show_values(fields)
    if name == "exports":
        return rows.show_list(f"{export}:{rows.show_type(*type_)}" for export, type_ in fields)
    if name == "imports":
        return rows.show_list(f"{module}.{name}:{rows.show_type(*type_)}" for module, name, type_ in fields)
    if name in ("number", "text"):
        return str(fields[0])
    return " ".join(map(str, (name, *(fields[:3] if name == "refused" else fields))))


class Embedding:
    """An embedding that runs rows, in a process of its own."""

    def __init__(self, conversation):
        self.conversation = conversation

    def order(self, *fields):
        """Sends an order, and returns its reply in the format of the rows."""
        return show_reply(*self.conversation.order(*fields))

    def load(self, module):
        return self.order("load", module)

    def link(self, module):
        return self.order("link", module)

    def register(self, instance, name):
        return self.order("register", instance, name)

    def call(self, instance, name, args):
        return self.order("call", instance, name, *args)

    def get(self, instance, name):
        return self.order("get_global", instance, name)

    def fuel(self, fuel):
        return self.order("set_fuel", fuel)

    def left(self):
        return self.order("fuel_left")

    def quota_left(self):
        return self.order("quota_left")

    def explain(self):
        return self.order("explain")

    def exports(self, instance):
        """Returns the exports in the format of the rows. If one differs when it is requested by its name, returns that reply instead."""
        listed = self.conversation.order("exports", instance)
        for name, type_ in listed[1:] if listed[0] == "exports" else ():
            found = self.conversation.order("export", instance, name)
            if found != ("exports", (name, type_)):
                return show_reply(*found)
        return show_reply(*listed)

    def module_exports(self, module):
        return self.order("module_exports", module)

    def module_imports(self, module):
        return self.order("module_imports", module)

    def script(self, json, files):
        for name, module in files:
            self.order("file", name, module)
        return self.order("script", json)

    def close(self):
        """Ends the process. Raises ChildProcessError if its status is not 0."""
        if end(self.conversation):
            raise ChildProcessError("the process did not end as it was told")


def end(conversation):
    """Ends the process, and returns its status."""
    return conversation.close()


def begin(conversation, setup, hosts, quota=None):
    """Begins an embedding with these host functions in a new conversation. Returns it, or None, and the result of `new`."""
    for host in hosts:
        define(conversation, host)
    if quota is not None:
        conversation.order("quota", quota)
    reply = conversation.order("begin", *setup)
    if reply[0] == "done":
        return Embedding(conversation), "done"
    end(conversation)
    return None, show_reply(*reply)
