"""The stored batches of examples/."""

import os

EXAMPLES = os.path.join(os.path.dirname(os.path.abspath(__file__)), "../../examples")


def words_of(name):
    path = f"{EXAMPLES}/{name}.words"
    if not os.path.exists(path):
        return "run"
    with open(path) as file:
        return file.read()


def stored_of(*commands):
    """Those that one of these commands answers, in the order of their names: name, batch and reply."""
    for name in sorted(name[:-6] for name in os.listdir(EXAMPLES) if name.endswith(".batch")):
        if words_of(name).startswith(commands):
            with open(f"{EXAMPLES}/{name}.batch", "rb") as batch, open(f"{EXAMPLES}/{name}.reply") as reply:
                yield name, batch.read(), reply.read()


def stored_for_run():
    return stored_of("run", "rehearse")
