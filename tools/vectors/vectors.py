#!/usr/bin/env python3
"""Makes the list that the program `test_encoder` replays, and what the program must print.

    vectors.py [--out crates/test_encoder] [--check] [--rust MACROS_RS]

Words come from GNU as and ld (Debian's binutils-riscv64-linux-gnu); refusals from document 01. Each form of `rvv!` is assembled as the
base instruction that document 01 means: `mv` as `add rd, rs1, zero`, `fgt.d` as `flt.d` with its operands exchanged, and so on. `addiw`,
which document 02 adds, comes last.

--check writes nothing, and fails where the files in --out differ from what is made.
--rust compiles the Rust's macros.rs in a scratch folder, and fails where its forms or any of its words differ from the list's. It
lacks `addiw`, which is left out there.
"""
import argparse
import pathlib
import random
import re
import subprocess
import sys
import tempfile

sys.path.insert(0, str(pathlib.Path(__file__).resolve().parent.parent))
from assemble import assemble  # noqa: E402

SEED = 20261115
ROW = 66  # bytes of a row

# A form: its name as a function, the kinds of its operands in `rvv!` order, and the base instruction as GNU as takes it.
# Kinds: x and f are registers, I S shift B J U immediates by their field, rm a rounding mode.
FORMS = [
    ("add", "x x x", "add x{0}, x{1}, x{2}"),
    ("mv", "x x", "add x{0}, x{1}, x0"),
    ("sub", "x x x", "sub x{0}, x{1}, x{2}"),
    ("neg", "x x", "sub x{0}, x0, x{1}"),
    ("and", "x x x", "and x{0}, x{1}, x{2}"),
    ("or", "x x x", "or x{0}, x{1}, x{2}"),
    ("xor", "x x x", "xor x{0}, x{1}, x{2}"),
    ("sll", "x x x", "sll x{0}, x{1}, x{2}"),
    ("srl", "x x x", "srl x{0}, x{1}, x{2}"),
    ("sra", "x x x", "sra x{0}, x{1}, x{2}"),
    ("addi", "x x I", "addi x{0}, x{1}, {2}"),
    ("nop", "", "addi x0, x0, 0"),
    ("andi", "x x I", "andi x{0}, x{1}, {2}"),
    ("ori", "x x I", "ori x{0}, x{1}, {2}"),
    ("xori", "x x I", "xori x{0}, x{1}, {2}"),
    ("not", "x x", "xori x{0}, x{1}, -1"),
    ("slli", "x x shift", "slli x{0}, x{1}, {2}"),
    ("srli", "x x shift", "srli x{0}, x{1}, {2}"),
    ("srai", "x x shift", "srai x{0}, x{1}, {2}"),
    ("ld", "x x I", "ld x{0}, {2}(x{1})"),
    ("sd", "x x S", "sd x{0}, {2}(x{1})"),
    ("beq", "x x B", "beq x{0}, x{1}, .+{2}"),
    ("bne", "x x B", "bne x{0}, x{1}, .+{2}"),
    ("blt", "x x B", "blt x{0}, x{1}, .+{2}"),
    ("ble", "x x B", "bge x{1}, x{0}, .+{2}"),
    ("bgt", "x x B", "blt x{1}, x{0}, .+{2}"),
    ("bge", "x x B", "bge x{0}, x{1}, .+{2}"),
    ("bltu", "x x B", "bltu x{0}, x{1}, .+{2}"),
    ("bgeu", "x x B", "bgeu x{0}, x{1}, .+{2}"),
    ("jal", "x J", "jal x{0}, .+{1}"),
    ("j", "J", "jal x0, .+{0}"),
    ("jalr", "x x I", "jalr x{0}, {2}(x{1})"),
    ("jr", "x", "jalr x0, 0(x{0})"),
    ("ret", "", "jalr x0, 0(x1)"),
    ("lui", "x U", "lui x{0}, {1}"),
    ("auipc", "x U", "auipc x{0}, {1}"),
    ("fadd_d", "f f f", "fadd.d f{0}, f{1}, f{2}, dyn"),
    ("fadd_d_rm", "f f f rm", "fadd.d f{0}, f{1}, f{2}, {3}"),
    ("fsub_d", "f f f", "fsub.d f{0}, f{1}, f{2}, dyn"),
    ("fmul_d", "f f f", "fmul.d f{0}, f{1}, f{2}, dyn"),
    ("fdiv_d", "f f f", "fdiv.d f{0}, f{1}, f{2}, dyn"),
    ("fsqrt_d", "f f", "fsqrt.d f{0}, f{1}, dyn"),
    ("fsgnj_d", "f f f", "fsgnj.d f{0}, f{1}, f{2}"),
    ("fsgnjn_d", "f f f", "fsgnjn.d f{0}, f{1}, f{2}"),
    ("fsgnjx_d", "f f f", "fsgnjx.d f{0}, f{1}, f{2}"),
    ("fmin_d", "f f f", "fmin.d f{0}, f{1}, f{2}"),
    ("fmax_d", "f f f", "fmax.d f{0}, f{1}, f{2}"),
    ("feq_d", "x f f", "feq.d x{0}, f{1}, f{2}"),
    ("flt_d", "x f f", "flt.d x{0}, f{1}, f{2}"),
    ("fle_d", "x f f", "fle.d x{0}, f{1}, f{2}"),
    ("fgt_d", "x f f", "flt.d x{0}, f{2}, f{1}"),
    ("fge_d", "x f f", "fle.d x{0}, f{2}, f{1}"),
    ("fld", "f x I", "fld f{0}, {2}(x{1})"),
    ("fsd", "f x S", "fsd f{0}, {2}(x{1})"),
    ("fabs_d", "f f", "fsgnjx.d f{0}, f{1}, f{1}"),
    ("fmv_d", "f f", "fsgnj.d f{0}, f{1}, f{1}"),
    ("fneg_d", "f f", "fsgnjn.d f{0}, f{1}, f{1}"),
    ("fcvt_w_d", "x f", "fcvt.w.d x{0}, f{1}, dyn"),
    ("fcvt_d_w", "f x", "fcvt.d.w f{0}, x{1}"),
    ("fcvt_l_d", "x f rm", "fcvt.l.d x{0}, f{1}, {2}"),
    ("fcvt_d_l", "f x", "fcvt.d.l f{0}, x{1}, dyn"),
    ("fmv_x_d", "x f", "fmv.x.d x{0}, f{1}"),
    ("fmv_d_x", "f x", "fmv.d.x f{0}, x{1}"),
    ("fmadd_d", "f f f f", "fmadd.d f{0}, f{1}, f{2}, f{3}, dyn"),
    ("fmsub_d", "f f f f", "fmsub.d f{0}, f{1}, f{2}, f{3}, dyn"),
    ("fnmadd_d", "f f f f", "fnmadd.d f{0}, f{1}, f{2}, f{3}, dyn"),
    ("fnmsub_d", "f f f f", "fnmsub.d f{0}, f{1}, f{2}, f{3}, dyn"),
    ("addiw", "x x I", "addiw x{0}, x{1}, {2}"),
]
LACKING = ["addiw"]  # the forms behind the Rust's own: `rvv!` has none of them

REGISTERS = [0, 1, 2, 5, 8, 9, 10, 18, 27, 31]
MODES = {0: "rne", 1: "rtz", 2: "rdn", 3: "rup", 4: "rmm", 7: "dyn"}

# Document 01, macros.rs, "Fields": the least and the greatest value of each immediate field, and the step between values.
FIELDS = {
    "I": (-2048, 2047, 1),
    "S": (-2048, 2047, 1),
    "shift": (0, 63, 1),
    "B": (-4096, 4094, 2),
    "J": (-1048576, 1048574, 2),
    "U": (0, 0xFFFFF, 1),
}
I32 = (-(2**31), 2**31 - 1)


def edges(kind):
    """The values of a field at its ends, around zero and on both sides of each power of two."""
    if kind == "rm":
        return sorted(MODES)
    low, high, step = FIELDS[kind]
    found = {low, low + step, high - step, high}
    for k in range(21):
        for n in (2**k - step, 2**k, 2**k + step):
            found |= {n, -n}
    return sorted(n for n in found if low <= n <= high and n % step == 0)


def outside(kind):
    """Values that the field does not hold: just outside it, and far."""
    if kind == "rm":
        return [5, 6, 8, 15, 0xFFFFFFFF]
    low, high, step = FIELDS[kind]
    found = {low - 1, high + 1, high + step, low - step, *I32}
    if step == 2:
        found |= {low + 1, -1, 1, high - 1}
    return sorted(found)


def spread(rng, places):
    """Registers for `places` places: each edge in each place, and rows of all different ones."""
    rows = []
    for place in range(places):
        for r in REGISTERS:
            others = rng.sample([q for q in REGISTERS if q != r], places - 1)
            rows.append(others[:place] + [r] + others[place:])
    rows += [rng.sample(range(32), places) for _ in range(8)]
    rows += [[r] * places for r in (0, 31)]
    return rows


def accepted(rng, kinds):
    registers = [k for k in kinds if k in ("x", "f")]
    values = [k for k in kinds if k not in ("x", "f")]
    if not kinds:
        return [[]]
    if not values:
        return spread(rng, len(registers))
    kind = values[0]  # a form has at most one, and it comes last
    rows = [rng.sample(range(32), len(registers)) + [v] for v in edges(kind) for _ in range(6 if kind == "rm" else 1)]
    if registers:
        rows += [row + [rng.choice(edges(kind))] for row in spread(rng, len(registers))]
    return rows


def refused(rng, kinds):
    """Operands and the number: a register above 31 is 1, whatever the value is; else a value outside its field is 2."""

    def fine(kind):
        return rng.choice(REGISTERS if kind in ("x", "f") else edges(kind))

    rows = []
    for place, kind in enumerate(kinds):
        register = kind in ("x", "f")
        for bad in [32, 33, 63, 256, 0x80000000, 0xFFFFFFFF] if register else outside(kind):
            row = [fine(k) for k in kinds]
            row[place] = bad
            rows.append((row, 1 if register else 2))
        if register and kinds[-1] not in ("x", "f"):
            for bad in outside(kinds[-1])[:2]:
                row = [fine(k) for k in kinds[:-1]] + [bad]
                row[place] = 32
                rows.append((row, 1))
    if kinds and kinds[-1] not in ("x", "f") and len(kinds) > 1:
        rows.append(([0xFFFFFFFF] * (len(kinds) - 1) + [outside(kinds[-1])[-1]], 1))
    return rows


def unique(rows):
    return list({repr(row): row for row in rows}.values())


def make():
    """Rows of form number, operands, and the word or the refusal's number."""
    rng = random.Random(SEED)
    words, refusals = [], []
    for number, (_, kinds, _) in enumerate(FORMS):
        kinds = kinds.split()
        words += [(number, row) for row in unique(accepted(rng, kinds))]
        refusals += [(number, row, why) for row, why in unique(refused(rng, kinds))]
    texts = []
    for number, row in words:
        _, kinds, text = FORMS[number]
        texts.append(text.format(*(MODES[v] if k == "rm" else v for k, v in zip(kinds.split(), row))))
    coded = [(n, row, "word", w) for (n, row), w in zip(words, assemble(texts))]
    return coded + [(n, row, "refused", why) for n, row, why in refusals]


def line(row):
    number, operands, answer, value = row
    columns = [f"{o % 2**32:08x}" for o in operands + [0] * (4 - len(operands))]
    text = f"{number:02x} {FORMS[number][0]:9} {' '.join(columns)} {answer:7} {value:08x}\n"
    assert len(text) == ROW, text
    return text


# ---- the Rust's own words

RUST_FORMS = [form for form in FORMS if form[0] not in LACKING]
FORM = re.compile(r"^    \(([a-z.]+)(.*)\) => \{", re.M)


def rust_name(name):
    return name.removesuffix("_rm").replace("_", ".")


def rust_forms(macros):
    text = pathlib.Path(macros).read_text()
    text = text[text.index("macro_rules! rvv ") :]
    return [(name, ["v" if k == "" else k for k in re.findall(r"(?:([xf])\()?\$\w+:expr", rest)]) for name, rest in FORM.findall(text)]


def rust_words(macros, rows):
    arms = []
    for number, (name, kinds, _) in enumerate(RUST_FORMS):
        operands = [f"{k}(o[{i}])" if k in "xf" else f"o[{i}]" if k == "rm" else f"(o[{i}] as i32)" for i, k in enumerate(kinds.split())]
        arms.append(f"        {number} => rvv!({rust_name(name)} {', '.join(operands)}) as u32,")
    driver = [
        f'#[macro_use]\n#[path = "{pathlib.Path(macros).resolve()}"]\nmod macros;',
        "fn word(form: u32, o: [u32; 4]) -> u32 {\n    match form {",
        *arms,
        "        _ => panic!(),\n    }\n}",
        "fn main() {",
        "    for l in std::io::stdin().lines() {",
        "        let l = l.unwrap();",
        "        let n: Vec<u32> = l.split(' ').map(|s| u32::from_str_radix(s, 16).unwrap()).collect();",
        '        println!("{:08x}", word(n[0], [n[1], n[2], n[3], n[4]]));',
        "    }\n}",
    ]
    with tempfile.TemporaryDirectory() as folder:
        source = pathlib.Path(folder, "driver.rs")
        source.write_text("\n".join(driver) + "\n")
        subprocess.run(["rustc", "-A", "warnings", "-o", f"{folder}/driver", source], check=True)
        asked = "".join(" ".join(f"{v % 2**32:x}" for v in [n, *o, *[0] * (4 - len(o))]) + "\n" for n, o, _, _ in rows)
        told = subprocess.run([f"{folder}/driver"], input=asked, check=True, capture_output=True, text=True)
    return [int(w, 16) for w in told.stdout.split()]


def compare_rust(macros, rows):
    theirs = rust_forms(macros)
    ours = [(rust_name(name), [k if k in ("x", "f") else "v" for k in kinds.split()]) for name, kinds, _ in RUST_FORMS]
    if theirs != ours:
        sys.exit(f"the forms differ from the Rust's: {[p for p in zip(theirs, ours) if p[0] != p[1]]}")
    rows = [row for row in rows if row[2] == "word" and FORMS[row[0]][0] not in LACKING]
    words = rust_words(macros, rows)
    differ = [(line(row), f"{w:08x}") for row, w in zip(rows, words) if row[3] != w]
    if len(words) != len(rows) or differ:
        sys.exit(f"the Rust's words differ in {len(differ)} of {len(rows)} rows: {differ[:5]}")
    print(f"the Rust has the same {len(ours)} forms and the same {len(rows)} words")


def main():
    parser = argparse.ArgumentParser(description=__doc__, formatter_class=argparse.RawDescriptionHelpFormatter)
    parser.add_argument("--out", default="crates/test_encoder")
    parser.add_argument("--check", action="store_true")
    parser.add_argument("--rust", metavar="MACROS_RS")
    given = parser.parse_args()
    rows = make()
    words = sum(row[2] == "word" for row in rows)
    files = {
        "stdin": "".join(map(line, rows)),
        "stdout": f"{words} words, {len(rows) - words} refusals, 0 mismatches\n",
    }
    if given.rust:
        compare_rust(given.rust, rows)
    for name, text in files.items():
        path = pathlib.Path(given.out, name)
        if not given.check:
            path.write_text(text)
        elif path.read_text() != text:
            sys.exit(f"{path} is not what this script makes")
    print(files["stdout"], end="")


main()
