"""What the tests and the makers of this repository share."""
