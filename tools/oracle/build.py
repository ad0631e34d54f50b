"""Builds the oracle: the Rust's files as they are, the driver in the place of riscv64's own tests, and stand-ins for what they name."""
import pathlib
import re
import subprocess

HERE = pathlib.Path(__file__).resolve().parent
SHIMS = ["anyhow", "toml", "rand", "spec_math", "num_complex"]
FILES = ["assembler.rs", "code.rs", "config.rs", "symbol.rs", "utils.rs"]
# cfg(test) opens riscv64's `mod tests`
FLAGS = ["--edition", "2021", "-A", "warnings", "-A", "explicit_builtin_cfgs_in_flags"]
MODES = {"checked": ["-C", "debug-assertions=on", "-C", "overflow-checks=on"], "optimized": ["-O"]}


def run(*words, cwd):
    subprocess.run([str(w) for w in words], cwd=cwd, check=True)


def generator(mod):
    """The trait Generator, made of the signatures in riscv64's `impl Generator for RiscV`."""
    body = mod[mod.index("impl Generator for RiscV {") :]
    body = body[: body.index("\n}")]
    signatures = re.findall(r"^    (fn .*?) \{", body, re.M | re.S)
    lines = [
        "use super::{code::Func, symbol::Loc, utils::Reg};",
        "use anyhow::Result;",
        "pub enum GeneratorType { RiscvScalar(bool) }",
        "pub trait Generator {",
        *(f"    {s};" for s in signatures),
        "}",
    ]
    return "\n".join(lines) + "\n"


def build(rust, folder, modes=MODES, files=None):
    """The oracle's programs by the names of modes, with their flags; files beside or in the place of the oracle's own, by their paths
    below src/."""
    rust, folder = pathlib.Path(rust).resolve(), pathlib.Path(folder)
    source = folder / "src"
    (source / "riscv64").mkdir(parents=True)
    for name in FILES:
        (source / name).symlink_to(rust / name)
    for name in ["mod.rs", "macros.rs"]:
        (source / "riscv64" / name).symlink_to(rust / "riscv64" / name)
    own = {"main.rs": HERE / "main.rs", "around.rs": HERE / "around.rs", "riscv64/tests.rs": HERE / "driver.rs"}
    for name, path in (own | (files or {})).items():
        (source / name).symlink_to(path)
    mod = (rust / "riscv64" / "mod.rs").read_text()
    (source / "generator.rs").write_text(generator(mod))
    for name in SHIMS:
        run("rustc", *FLAGS, "--crate-type", "rlib", HERE / "shims" / f"{name}.rs", cwd=folder)
    run("rustc", *FLAGS, "--crate-type", "proc-macro", HERE / "shims" / "serde.rs", cwd=folder)
    for mode, flags in modes.items():
        run("rustc", *FLAGS, "--cfg", "test", *flags, "-L", ".", "-o", mode, source / "main.rs", *externs(), cwd=folder)
    return {mode: folder / mode for mode in modes}


def externs():
    crates = [f"{name}=lib{name}.rlib" for name in SHIMS] + ["serde=libserde.so"]
    return [word for crate in crates for word in ("--extern", crate)]


def ask(program, lines):
    """The answers to lines: bytes, a number, or None where the Rust panics."""
    told = subprocess.run([program], input="".join(line + "\n" for line in lines), check=True, capture_output=True, text=True)
    answers = told.stdout.splitlines()
    if len(answers) != len(lines):
        raise SystemExit(f"{len(lines)} lines and {len(answers)} answers")
    return [answer(text) for text in answers]


def answer(text):
    if text == "panic":
        return None
    return int(text[1:]) if text.startswith("=") else bytes.fromhex(text)
