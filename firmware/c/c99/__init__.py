"""Makes ee.c of the plain Rust of the store."""
