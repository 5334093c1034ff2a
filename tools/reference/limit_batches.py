"""Batches that stand at a limit of docs/FORMAT.md, or one above it: each is made of a number, which is the
limit or one more."""

SHARE = "share {} 32 1 1 ab base - - - 9"
SCHEDULE = "base - - - 9"
SEED = "rand " + "5a" * 32
BYTES, NUMBER = 65_535, 65_535


def text_of(lines, version=2):
    return "".join(f"{line}\n" for line in [f"hpkebatch {version}", *lines, "end"]).encode()


def in_lane(*calls):
    return text_of([SHARE.format("send"), SHARE.format("recv"), "lane", *calls])


def exchanges(count, size):
    """A batch of so many exchanges of capsules, each with two texts of so many bytes."""
    text = "61" * size
    lines = ["rand " + "00" * 32, "keygen", *[f"ask 0 7 1 1 {text}"] * count]
    lines += [f"answer 0 7 @{number} {'aa' * 16} {text}" for number in range(count)]
    return text_of([*lines, *(f"take {number} @{number}" for number in range(count))])


def with_length(size):
    """A batch of so many bytes: seals that are refused, since they name no context."""
    least = len(text_of(["lane", "seal 0 - 00"]))
    whole, left = divmod(size - least, 2 * 1_048_576 + len("seal 0 - \n"))
    # A number of one digit more makes the length odd.
    last = f"seal {10 * (left % 2)} - " + "00" * ((left - left % 2) // 2 + 1)
    return text_of(["lane", *["seal 0 - " + "00" * 1_048_576] * whole, last])


COUNTS = {
    "key lines": (64, lambda n: text_of(["peer -"] * n)),
    "context lines": (256, lambda n: text_of([SHARE.format("send")] * n)),
    "lanes": (16, lambda n: text_of(["lane"] * n)),
    "items of an unsealall": (4096, lambda n: in_lane("unsealall 1" + " - 00" * n)),
    "items of all lanes": (65_536, lambda n: in_lane(*["export 0 - 1"] * n)),
    "items, some of an unsealall": (65_536, lambda n: in_lane("unsealall 1" + " - 00" * 4096, *["seal 1 - -"] * (n - 4096))),
    "sum of all LEN": (16_777_216, lambda n: in_lane(*["export 0 - 65535"] * 256, f"export 0 - {n - 256 * 65_535}")),
    "bytes of the input": (67_108_864, with_length),
}

# Lines with a field of so many bytes.
SIZES = {
    "secret {}": BYTES,
    "peer857 {}": BYTES,
    "share send 32 1 1 {} base - - - 9": BYTES,
    "share send 32 1 1 - base {} - - 9": BYTES,
    "share send 32 1 1 - psk - {} 00 9": BYTES,
    "share send 32 1 1 - psk - 00 {} 9": BYTES,
    f"recv 1 1 0 {{}} {SCHEDULE}": BYTES,
    "seal 0 {} -": BYTES,
    "seal 0 - {}": 1_048_576,
    "unseal 1 {} -": BYTES,
    "unseal 1 - {}": 1_048_592,
    "unsealall 1 - - {} -": BYTES,
    "unsealall 1 - - - {}": 1_048_592,
    "export 0 {} 0": BYTES,
    "rand {}": 32,
}

# Lines with a number.
NUMBERS = {
    "share send {} 1 1 - base - - - 9": NUMBER,
    "share send 32 {} 1 - base - - - 9": 3,
    "share send 32 1 {} - base - - - 9": 65_535,
    "share send 32 1 1 - base - - - {}": 2**64 - 1,
    f"send 1 1 {{}} {SCHEDULE}": NUMBER,
    f"recv 1 1 {{}} 00 {SCHEDULE}": NUMBER,
    f"recv 1 1 0 @{{}} {SCHEDULE}": NUMBER,
    "seal {} - -": NUMBER,
    "unseal {} - -": NUMBER,
    "unsealall {} - -": NUMBER,
    "export {} - 0": NUMBER,
    "export 0 - {}": NUMBER,
}


def with_line(line):
    if line.startswith("rand"):
        return text_of([line])
    if line.split()[0] in ("secret", "peer857", "share", "send", "recv"):
        return text_of([SEED, line])
    return in_lane(line)


def at_limits():
    """A name, the batch at the limit, and the one above it."""
    for name, (limit, make) in COUNTS.items():
        yield name, make(limit), make(limit + 1)
    for line, limit in SIZES.items():
        yield line, *(with_line(line.format("00" * size)) for size in (limit, limit + 1))
    for line, limit in NUMBERS.items():
        yield line, *(with_line(line.format(number)) for number in (limit, limit + 1))


def out_of_range():
    """Numbers that are far outside, of so many digits, and of one 0 too many."""
    for line in NUMBERS:
        for digits in ("0", "00", "9" * 20, "9" * 39, "1" + "0" * 999_999, "0" * 1_000_000):
            yield f"{line}, {len(digits)} digits", with_line(line.format(digits))


def near_powers_of_two():
    """Batches of as many bytes as powers of two, one less, and one more."""
    for power in range(6, 26):
        for size in (2**power - 1, 2**power, 2**power + 1):
            yield f"{size} bytes", with_length(size)
