"""Runs the official test suite of WebAssembly: which commands the engine can run, and what they gave."""
