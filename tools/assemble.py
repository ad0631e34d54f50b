"""Words by GNU as and ld (Debian's binutils-riscv64-linux-gnu)."""
import pathlib
import subprocess
import sys
import tempfile

TOOLS = "riscv64-linux-gnu-"


def assemble(texts):
    """The word of each instruction. GNU ld fills in the offsets of branches and jumps; the size shows that each is one word."""
    with tempfile.TemporaryDirectory() as folder:

        def tool(name, *words):
            subprocess.run([TOOLS + name, *words], cwd=folder, check=True)

        lines = [".option norvc", ".option norelax", ".globl _start", "_start:", *texts]
        pathlib.Path(folder, "list.s").write_text("\n".join(lines) + "\n")
        tool("as", "-march=rv64ifd", "-mabi=lp64d", "-mno-relax", "-o", "list.o", "list.s")
        tool("ld", "--no-relax", "-Ttext=0x400000", "-o", "list", "list.o")
        tool("objcopy", "-O", "binary", "-j", ".text", "list", "list.bin")
        data = pathlib.Path(folder, "list.bin").read_bytes()
    if len(data) != 4 * len(texts):
        sys.exit(f"{len(texts)} instructions became {len(data)} bytes")
    return [int.from_bytes(data[i : i + 4], "little") for i in range(0, len(data), 4)]
