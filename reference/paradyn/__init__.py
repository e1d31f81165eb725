"""The reference: a slow program that does what `paradyn` does, written apart from it."""
