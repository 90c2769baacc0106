"""Writes the flows of random worlds as JSON, each with its world and a shortest script: `python3 -m exhaustive FIRST LAST FILE`.

It is run in `ask/tests` with PYTHONPATH=../src; the variable LABSYS names the program. The file is renewed behind each world.
"""
import json
import os
import pathlib
import sys
import time

from exhaustive.flows import as_json, played_flows
from labask.playing import Player


def main() -> None:
    """Searches the worlds of the seeds from FIRST to LAST, and plays what is found in the worlds themselves."""
    first, last, path = int(sys.argv[1]), int(sys.argv[2]), pathlib.Path(sys.argv[3])
    player, pairs = Player([os.environ["LABSYS"]]), []
    for seed in range(first, last + 1):
        start = time.process_time()
        found = [as_json(seed, *flow) for flow in played_flows(seed, player)]
        print(f"seed {seed}: {len(found)} flows, {time.process_time() - start:.1f} s of this process", flush=True)
        pairs += found
        beside = path.with_suffix(".new")
        beside.write_text(json.dumps(pairs, indent=1), "utf-8")
        beside.replace(path)


if __name__ == "__main__":
    main()
