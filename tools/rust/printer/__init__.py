"""Prints the crates of this repository as plain Rust."""
