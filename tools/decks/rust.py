"""The Rust's side of a deck: its functions called in document 01's sequence, through the driver in tools/oracle. Before `add_consts` the
driver appends document 02's `nop` where the Rust's own length is no multiple of 8."""
import pathlib
import struct
import sys

sys.path.insert(0, str(pathlib.Path(__file__).resolve().parent.parent / "oracle"))
import build  # noqa: E402
from reference import parsed, split  # noqa: E402

NAMES = {("get", p): f"load_{p}" for p in ("mem", "stack", "param")} | {("put", p): f"save_{p}" for p in ("mem", "stack", "param")}
# The Rust's `frac` and `sign` know one scratch register.
SCRATCH = 11


def step(name, v):
    """One line's step, as the driver takes it."""
    if name in ("get", "put"):
        return (NAMES[name, v[1]], v[0], v[2])
    if name == "branch":
        return ("branch_if", *v)
    if name == "frac":
        assert v[2] == SCRATCH
        return (name, *v[:2])
    return (name, *v)


def float_bits(n):
    return int.from_bytes(struct.pack("<d", float(n)), "little")


def steps(file):
    """The driver's line for an accepted file, and how many of its lines are `sign`, for which the driver has document 01's words."""
    first, *rest = split(file)
    frame, (cap, states, obs, last, mask) = parsed(first, True)
    body = [parsed(told, False) for told in rest]
    bits = [v[0] if name == "bits" else float_bits(v[0]) for name, v in body if name in ("float", "bits")]
    told = [(f"prologue_{frame}", cap, states, obs, *([last] if frame == "indirect" else [])), ("save_used_registers", mask)]
    told += [step(name, v) for name, v in body if name not in ("float", "bits")]
    told += [("load_used_registers", mask), (f"epilogue_{frame}", cap, states, obs, last)]
    if bits:
        told += [("to_eights",), ("add_consts", *(half for b in bits for half in (b % 2**32, b >> 32)))]
    told.append(("apply_jumps",))
    return ";".join(" ".join(map(str, t)) for t in told), sum(name == "sign" for name, _ in body)


def words(program, files):
    """The words of accepted files, and how many `sign` lines were set apart."""
    lines, apart = [], 0
    for file in files:
        told, signs = steps(file)
        lines.append(told)
        apart += signs
    answers = build.ask(program, lines)
    return [None if a is None else [int.from_bytes(a[i : i + 4], "little") for i in range(0, len(a), 4)] for a in answers], apart
