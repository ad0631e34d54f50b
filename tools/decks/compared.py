"""A program's answers to decks, compared with the reference's byte for byte."""
import argparse
import collections
import pathlib
import shlex
import subprocess
import sys

from reference import CODE
from refused import refused

TARGET = pathlib.Path(__file__).resolve().parent.parent.parent / "target"


def arguments(description, program, folder):
    """SEED and COUNT, and where the program is and a differing file goes, both under target/."""
    parser = argparse.ArgumentParser(description=description, formatter_class=argparse.RawDescriptionHelpFormatter)
    parser.add_argument("seed", type=int)
    parser.add_argument("count", type=int)
    parser.add_argument("--program", default=str(TARGET / "bin" / program))
    parser.add_argument("--keep", default=TARGET / folder, type=pathlib.Path)
    return parser.parse_args()


def told(program, deck):
    """What the program prints, or why it has no answer."""
    done = subprocess.run(program, input=deck, capture_output=True)
    return done.stdout.decode("latin-1") if done.returncode >= 0 else f"ended by signal {-done.returncode}\n"


def keep(folder, deck, want, got):
    folder.mkdir(parents=True, exist_ok=True)
    (folder / "deck").write_bytes(deck)
    (folder / "expected").write_text(want)
    (folder / "printed").write_text(got, encoding="latin-1")
    print(f"first differing file: {folder}/deck")


def recorded():
    """The refused decks of the recorded list that have a whole buffer."""
    return (deck for deck, _, _, size, _ in refused() if size == CODE)


def compared(given, decks, answer):
    """Prints how many decks have each answer, and how many answers differ; the first differing file is kept. Ends the program."""
    program, tally = shlex.split(given.program), collections.Counter()
    for deck in decks:
        want, got = answer(deck), told(program, deck)
        tally["number " + want.split(",")[1] if want.startswith("refused") else "accepted"] += 1
        tally["same" if want == got else "differ"] += 1
        if want != got and tally["differ"] == 1:
            keep(given.keep, deck, want, got)
    print(", ".join(f"{name}: {tally[name]}" for name in sorted(tally) if name not in ("same", "differ")))
    print(f"same {tally['same']}, differ {tally['differ']}")
    sys.exit(tally["differ"] > 0)
