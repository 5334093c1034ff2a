"""Read by gdb for tools/secrets_whole: stops the program under valgrind where it begins to set contexts up,
finds the secrets of its batch in its memory, and marks them as undefined. What it does is told by the
environment: PROGRAM, VALGRIND (its process), and SECRETS, in hex with a comma between each two."""

import os
import subprocess

import gdb

program, process = os.environ["PROGRAM"], int(os.environ["VALGRIND"])
secrets = [bytes.fromhex(it) for it in os.environ["SECRETS"].split(",")]


def mappings():
    """The parts of the program's memory that may be written, without valgrind's own."""
    with open(f"/proc/{process}/maps") as file:
        for line in file:
            ends, rights = line.split()[:2]
            low, high = (int(end, 16) for end in ends.split("-"))
            if "rw" in rights and (low < 0x1000000000 or 0x1FF0000000 <= low <= 0x2000000000):
                yield low, high


def base():
    """Where the program is mapped."""
    with open(f"/proc/{process}/maps") as file:
        return min(int(line.split("-")[0], 16) for line in file if program in line)


def places():
    """Where the functions begin that set contexts up."""
    names = subprocess.run(["nm", program], stdout=subprocess.PIPE, check=True).stdout.decode()
    found = [line.split(" ", 2) for line in names.splitlines()]
    return [int(it[0], 16) for it in found if len(it) == 3 and it[2].startswith("context_table::setups::set_up::<")]


def mark(secret):
    """Marks each copy of a secret, and counts them."""
    count, memory = 0, gdb.selected_inferior()
    for low, high in mappings():
        while low + len(secret) <= high:
            try:
                at = memory.search_memory(low, high - low, secret)
            except gdb.MemoryError:
                break
            if at is None:
                break
            gdb.execute(f"monitor make_memory undefined {hex(at)} {len(secret)}", to_string=True)
            count, low = count + 1, at + len(secret)
    return count


gdb.execute("set pagination off")
gdb.execute("set confirm off")
gdb.execute(f"target remote | vgdb --pid={process}")
first = base()
for place in places():
    gdb.execute(f"break *{first + place}")
gdb.execute("continue")
gdb.execute("monitor v.set vgdb-error 999999")
print("marked", *(mark(secret) for secret in secrets))
gdb.execute("delete")
gdb.execute("detach")
gdb.execute("quit")
