"""Journals: actions as docs/HOST.md writes them, the records that they are by its tables of kinds and calls, and the program that runs them."""
import sys

sys.dont_write_bytecode = True
from reading import ROOT, complain, tables

HOST = "docs/HOST.md"
HEADER = b"RPJ\1\0\0\0\0"
PIN_KINDS = {"data": 0, "table": 1}
rows = [(heads, dict(zip(heads, cells))) for _, heads, cells in tables(HOST)]
KINDS = {row["action"]: row for heads, row in rows if heads[:2] == ["kind", "action"]}
CALLS = {row["asks for"].strip("`"): row for heads, row in rows if heads[:2] == ["call", "asks for"]}


def number(word):
    return PIN_KINDS[word] if word in PIN_KINDS else int(word)


def argument(cell, words):
    """What a column says of an argument: nothing, a number that is always the same, or a number that the action names."""
    return 0 if not cell else int(cell) if cell.isdigit() else number(words.pop(0))


def record(text):
    """An action by its name and what it uses, or eight bytes in hex; what is neither is complained of."""
    try:
        return bytes.fromhex(text.strip("`")) if text.startswith("`") else encoded(text)
    except (IndexError, KeyError, ValueError):
        complain(f"{HOST}: {text} is no action of its tables")
        return bytes(8)


def encoded(text):
    name, *words = text.split()
    kind, call, value = KINDS[name], 0, 0
    row = kind
    if kind["also"] == "call":
        row = CALLS[words.pop(0)]
        call = int(row["call"])
    a = argument(row["a"], words)
    b = argument(row["b"], words)
    if kind["also"] == "value":
        value = int(words.pop(0))
    if words:
        raise ValueError("too many words")
    return bytes([int(kind["kind"]), a, b, call]) + value.to_bytes(4, "little")


def written(text):
    """The records of a run, with those that a word with ! stands for, each with whether its answer is written in the table."""
    for part in text.split("; "):
        name, _, rest = part.partition(" ")
        if not name.endswith("!"):
            yield record(part), True
            continue
        name = name[:-1]
        if name == "turn":
            three = ["ret_ctrl", f"switch {rest}", "chmod"]
        else:
            three = [f"hcall new 7 {rest}" if name == "new_sm" else f"hcall {name} {rest}", f"{name} {rest}", "chmod"]
        yield from ((record(action), False) for action in three)


def journal(records):
    return HEADER + b"".join(records)


def program(*words):
    """The command that runs the program itself, without ./rpj: its words are the image to start from and the one to save, `stream` and `through`, each
    empty for none; those behind the last that is not empty may be left out. It says its status on descriptor 3, which nobody reads here."""
    return ["sh", "-c", 'exec sh "$@" 3>/dev/null', "sh", ROOT / "tools/start", ROOT / "target/bin/rpj", *words]
