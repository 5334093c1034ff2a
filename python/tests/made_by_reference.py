"""Prints random batches of tools/reference and what that second program answers, a JSON text each line.

    python/tests/made_by_reference.py COUNT SEED

It is run by itself, since a module of tools/reference has the name of the package.
"""

import importlib.machinery
import importlib.util
import json
import os
import random
import sys

REFERENCE = os.path.join(os.path.dirname(os.path.abspath(__file__)), "../../tools/reference")
sys.path.insert(0, REFERENCE)
sys.dont_write_bytecode = True

from capsule_batches import CapsuleMaker  # noqa: E402
from capsules import answer_capsules  # noqa: E402
from hpkebatch import answer  # noqa: E402
from live import answer_live  # noqa: E402
from live_batches import LiveMaker  # noqa: E402


def maker_of_runs():
    """The maker of the script tools/reference/compare, whose name has no suffix."""
    loader = importlib.machinery.SourceFileLoader("compare", os.path.join(REFERENCE, "compare"))
    module = importlib.util.module_from_spec(importlib.util.spec_from_loader("compare", loader))
    loader.exec_module(module)
    return module.Maker


def made(Maker, number, source):
    if number % 8 == 7:
        batch = CapsuleMaker(source).batch()
        return ["capsules"], batch, answer_capsules(batch)
    if number % 8 in (2, 5):
        batch = LiveMaker(source).batch()
        return ["live", "--workers", "1"], batch, answer_live(batch)
    batch = Maker(source).batch()
    steps = [source.randrange(4) for _ in range(source.randrange(12))]
    return ["rehearse", ",".join(map(str, steps)) or "-"], batch, answer(batch, steps)


def main():
    count, seed = map(int, sys.argv[1:])
    Maker = maker_of_runs()
    for number in range(count):
        words, batch, (reply, status) = made(Maker, number, random.Random(f"{seed} {number}"))
        print(json.dumps({"words": words, "batch": batch.decode("latin-1"), "reply": reply, "status": status}))


if __name__ == "__main__":
    main()
