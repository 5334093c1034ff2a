"""What the benchmarks share: programs over some of the crates, and the heads of the tables."""
import datetime
import os
import platform
import shutil
import subprocess
import sys

HOME = os.path.dirname(os.path.dirname(os.path.abspath(__file__)))
sys.path.insert(0, os.path.join(HOME, "tools"))
from crate_rows import rows_in, with_those_below  # noqa: E402

RUNS = 5


def build(folder, program, uses):
    """Puts the program of bench/PROGRAM_main.txt into a folder, beside the crates that it uses and those
    below them, has it proved and built there by `rt ci`, over what that has kept on the machine, and gives
    its path. There it is run with nothing on standard input, and has to print nothing."""
    with open(os.path.join(HOME, "crates.txt")) as file:
        rows = rows_in(file.read())
    needed = with_those_below(uses, rows)
    for name in needed:
        for part in ["src", "specs", "proofs"]:
            source = os.path.join(HOME, "crates", name, part)
            if os.path.isdir(source):
                shutil.copytree(source, os.path.join(folder, "crates", name, part))
    crate = os.path.join(folder, "crates", program)
    os.makedirs(os.path.join(crate, "src"))
    shutil.copy(os.path.join(HOME, "bench", f"{program}_main.txt"), os.path.join(crate, "src/main.rt"))
    shutil.copy(os.path.join(HOME, "HANDLES"), folder)
    with open(os.path.join(folder, "crates.txt"), "w") as file:
        file.writelines(f"{rows[name]}\n" for name in rows if name in needed)
        file.write(f"{program}: {' '.join(uses)}\n")
    built = subprocess.run(["rt", "ci"], cwd=folder, stdout=subprocess.PIPE, stderr=subprocess.STDOUT)
    if built.returncode != 0:
        sys.exit(f"bench: the build failed:\n{built.stdout.decode()[-2000:]}")
    return os.path.join(crate, "out", program)


def rounds(program):
    """The lines that the program prints in all its runs, one for each round of a work."""
    lines = []
    for _ in range(RUNS):
        ended = subprocess.run([program], input=b"\n", stdout=subprocess.PIPE, check=True)
        lines += ended.stdout.decode().splitlines()
    return lines


def output_of(words):
    """What a command prints, without its end."""
    ended = subprocess.run(words, stdout=subprocess.PIPE, stderr=subprocess.DEVNULL)
    return ended.stdout.decode().strip()


def processor():
    """The processor's name, and how many of them there are."""
    with open("/proc/cpuinfo") as file:
        names = [line.split(":")[1].strip() for line in file if line.startswith("model name")]
    return f"{names[0] if names else platform.machine()}, {len(names)} processors"


def print_head(runs=RUNS):
    """Prints when and where a table was measured, over which kit and revision."""
    kit = output_of(["rt", "version"]).split(" ")[0]
    revision = output_of(["git", "-C", HOME, "rev-parse", "--short", "HEAD"])
    print(f"{datetime.date.today()}, {processor()}, best of {runs} runs; {kit}; revision {revision}")
