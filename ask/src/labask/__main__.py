"""Runs the command line, as `python3 -m labask`."""
import sys

from labask.main import main

sys.exit(main())
