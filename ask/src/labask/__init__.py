"""Questions about a world of `labsys`, answered by playing calls."""

__version__ = "2.0.0"  # that of docs/version.txt, which is not installed
