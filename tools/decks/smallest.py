#!/usr/bin/env python3
"""The fewest bytes of a deck file that is refused with 7: a count over all heads and lines, by reference.py's words.

    python3 tools/decks/smallest.py

7 is more than 16,384 words in all, more than 4,096 jumps, or a file of more than 65,536 bytes. How many words a line has follows from its
name, from which registers are one, and from whether its cell is far (index 256 on), so the shortest text of each is tried; the most words
that lines of so many bytes have is counted (some twenty kinds, each as often as one likes), for heads with and without far `stack` cells.
"""
from reference import orders, routine

WORDS, JUMPS, NOP = 16384, 4096, 0x13
NAMES = orders.names("unary", "scratched", "binary", "fused")
REGISTERS = [",".join([name, *"0" * (len(orders.FIELDS[name]) - 1), last]) for name in NAMES for last in "01"]
CELLS = [f"{n},0,{p},{i}" for n in ("get", "put") for p in ("mem", "stack", "param") for i in (0, 256)]
CELLS += ["ifelse,0,0,0,0", "ifelse,0,0,0,256"]
OTHERS = ["load_const,0,0", "branch,0,0,0", "branch,0,0,1", "label,0"]
CONSTANTS = ["float,0", "bits,0000000000000000"]
FAR = ("stack,256", "0,0,0,256")
SAVED = [8, 9, *range(18, 28)]


def words(lines):
    """Without the `nop` before constants: 16,384 is even, so with it no more files have too many."""
    told = routine("".join(line + "\n" for line in lines).encode())
    return len(told.words) - (told.constants > 0 and told.words[told.offset // 4 - 1] == NOP)


def most(lines, limit):
    """The most words that lines of b bytes in all have, for each b up to the limit."""
    roomy = ["indirect,257,257,0,257,0", "label,0", "float,0"]
    kinds = {}
    for line in lines:
        around = [r for r in roomy if r != line] if line == "label,0" else roomy
        size, n = len(line) + 1, words(around + [line]) - words(around)
        kinds[size] = max(kinds.get(size, 0), n)
    found = [0] * (limit + 1)
    for b in range(1, limit + 1):
        found[b] = max([found[b - 1]] + [found[b - size] + n for size, n in kinds.items() if size <= b])
    return found


def heads(caps):
    """Bytes and words of every head with one of these caps; saved registers are two words each."""
    counts = [*range(18), 99, 100, 255, 256, 257, 999, 1000, 2048]
    masks = {}
    for chosen in range(1 << 12):
        mask = sum(1 << r for k, r in enumerate(SAVED) if chosen >> k & 1)
        size = len(str(mask))
        masks[size] = max(masks.get(size, 0), bin(chosen).count("1"))
    for kind in ("fast", "indirect"):
        for cap in caps:
            for states in counts[:9] if kind == "fast" else counts:
                for obs in counts:
                    if kind == "fast" and states + obs == 0:
                        continue
                    line = f"{kind},{cap},{states},{obs},0,0"
                    n = words([line])
                    for size, saved in masks.items():
                        if saved == 0 or cap >= 16:
                            yield len(line) + size, n + 2 * saved, line


def least(caps, lines, limit=40000):
    found = most(lines, limit)
    best = {}
    for size, n, line in heads(caps):
        best[size] = max(best.get(size, (0, "")), (n, line))
    return min((size + next(b for b in range(limit + 1) if n + found[b] > WORDS), line) for size, (n, line) in best.items())


def main():
    lines = REGISTERS + CELLS + OTHERS + CONSTANTS
    near = [line for line in lines if not line.endswith(FAR)]
    print("by words, far stack cells:", *least([257, 300, 511, 512, 999, 1000, 2048, 4096], lines))
    print("by words, none:", *least([0, 1, 9, 15, 16, 17, 31, 32, 63, 64, 99, 100, 127, 128, 253, 254, 255, 256], near))
    # two jumps a line, the shortest such line is `branch`; a frame has four jumps at most
    print("by jumps, at least:", len("fast,0,1,0,0,0\n") + ((JUMPS + 1 - 4 + 1) // 2) * len("branch,0,0,0\n"))


if __name__ == "__main__":
    main()
