"""Encode of Streamlined NTRU Prime, written from its specification (NTRU Prime round 3, Encode).

Run: python3 tools/vectors/radix_encode.py. It prints the rows of `RADIX_CASES`, `ROUNDED_761` and `ROUNDED_857` in
crates/lattice_tests/src/radix_pack_tests: the values and radices, each a pattern that is repeated up to the
count, and the bytes, as runs of equal pieces.
"""

LIMIT = 16384


def encode(values, radices):
    """The bytes of each level, as a list of lists of pieces."""
    if len(values) == 1:
        value, radix, piece = values[0], radices[0], b""
        while radix > 1:
            piece += bytes([value % 256])
            value, radix = value // 256, -(-radix // 256)
        return [[piece]]
    pieces, next_values, next_radices = [], [], []
    for i in range(0, len(values) - 1, 2):
        value = values[i] + values[i + 1] * radices[i]
        radix = radices[i] * radices[i + 1]
        piece = b""
        while radix >= LIMIT:
            piece += bytes([value % 256])
            value, radix = value // 256, -(-radix // 256)
        pieces.append(piece)
        next_values.append(value)
        next_radices.append(radix)
    if len(values) % 2 == 1:
        next_values.append(values[-1])
        next_radices.append(radices[-1])
    return [pieces] + encode(next_values, next_radices)


def runs(levels):
    """Equal neighbouring pieces as (count, hex)."""
    out = []
    for pieces in levels:
        fresh = True
        for piece in pieces:
            if not piece:
                continue
            if out and not fresh and out[-1][1] == piece.hex():
                out[-1][0] += 1
            else:
                out.append([1, piece.hex()])
            fresh = False
    return out


def repeated(pattern, count):
    return [pattern[i % len(pattern)] for i in range(count)]


def show(name, values, radices, count):
    levels = encode(repeated(values, count), repeated(radices, count))
    total = sum(len(piece) for pieces in levels for piece in pieces)
    print(f"{name}: values {values}, radices {radices}, count {count}: {total} bytes")
    print("    [" + ", ".join(f'({n}, "{piece}")' for n, piece in runs(levels)) + "]")


CASES = [
    ([4590], [4591], 761),
    ([5166], [5167], 857),
    ([0], [1], 1),
    ([1], [2], 1),
    ([254], [255], 1),
    ([255], [256], 1),
    ([256], [257], 1),
    ([16382], [16383], 1),
    ([0, 1], [1, 2], 2),
    ([3, 16382], [257, 16383], 2),
    ([16382, 0, 200], [16383, 1, 255], 3),
    ([200, 256, 0], [256, 257, 2], 3),
    ([1, 254, 255, 256, 0, 16382, 1], [2, 255, 256, 257, 1, 16383, 2], 7),
    ([17, 16000], [16383, 16383], 761),
    ([1, 0], [2, 1], 761),
    ([0], [1], 761),
]

for values, radices, count in CASES:
    show("RADIX_CASES", values, radices, count)

# Rounded elements: 3 digit - 2295 of sntrup761, 3 digit - 2583 of sntrup857.
show("ROUNDED", [765, 766], [1531], 761)
show("ROUNDED", [1, 1721], [1723], 857)
