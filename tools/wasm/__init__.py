"""Reads and writes modules in the binary format, as far as the tools need it."""
