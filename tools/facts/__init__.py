"""The facts of bindings/table.toml: how they are read, written in each language, and compared with `crates`."""
