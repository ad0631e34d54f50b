"""The sentences of refusals, as the table in docs/DECK.md has them; no tool reads them from crates/."""
import pathlib
import re

DECK = pathlib.Path(__file__).resolve().parent.parent / "docs" / "DECK.md"


def sentences():
    """The sentence of each number."""
    table = re.search(r"^\| number \| sentence \|\n\|[-|]+\|\n((?:\|.*\n)+)", DECK.read_text(), re.M)[1]
    found = {int(number): text for number, text in re.findall(r"^\| (\d+) \| `([^`]+)` \|$", table, re.M)}
    assert len(found) == len(table.splitlines()), "a row of docs/DECK.md's table of sentences can't be read"
    return found


def reason(answer):
    """What `deckwords` writes to standard error beside this answer."""
    refused = re.fullmatch(r"refused,(\d+),(\d+)\n", answer)
    return f"line {refused[2]}: {refused[1]}, {sentences()[int(refused[1])]}\n" if refused else ""
