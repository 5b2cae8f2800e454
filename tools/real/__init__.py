"""What `tools/check/real` is made of: the programs, their sources, how they are built, their inputs, and how they run."""
