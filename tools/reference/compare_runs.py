"""Runs of the built program, for comparison with the reference. HPKEBATCH in the environment names another
program than the one that the gate builds."""

import os
import subprocess

BUILT = os.path.join(os.path.dirname(os.path.abspath(__file__)), "../../crates/hpkebatch/out/hpkebatch")
PROGRAM = os.environ.get("HPKEBATCH", BUILT)

# The status, standard output and standard error where memory ran out.
NO_MEMORY = (6, b"", b"hpkebatch: out of memory\n")


def told(data, words, seconds=None):
    """Standard output, a character for each byte, and the status."""
    done = subprocess.run([PROGRAM, *words], input=data, capture_output=True, check=False, timeout=seconds)
    return done.stdout.decode("latin-1"), done.returncode
