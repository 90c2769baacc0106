"""Reads logs of strace, and follows them in a world: calls, descriptors, current directories and processes."""
