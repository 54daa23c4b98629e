#!/usr/bin/env python3
"""damaged.py IMAGE FOLDER: images for a check, made of the image of the host of examples/nine.rpj, valid ones, damaged ones and what is none. A file's
name, up to a comma, is a line that the check prints of it: for each rule, each of its parts and each field there is one."""
import sys
from pathlib import Path

sys.dont_write_bytecode = True
source, folder = sys.argv.pop(1), Path(sys.argv.pop(1))  # `reading` takes a word for its tree
from reading import tables

END = 4760
ROWS = [cells[:3] for _, heads, cells in tables("docs/IMAGE.md") if heads[:3] == ["what", "offset", "bytes"]]
FIELDS = {name: (int(offset.replace(",", "")), int(size.replace(",", ""))) for name, offset, size in ROWS if name}
VALUES = ("mark", "version", "free", "memory", "line")  # no byte of these is a number out of range

# line, and the bytes that lead to it: field, place, byte. Page 4 is the host's; page 8 is guest 0's, at its physical 1 and its address 0; places
# hold a page plus one.
DAMAGE = [
    ("1 broken guest 3", ("call", 3, 2), ("callB", 3, 1)),
    ("2 broken page 0", ("cacheable", 0, 0)),
    ("2 broken page 63", ("kind", 63, 1)),
    ("3 broken guest 0 physical 1", ("physical", 2, 9)),
    ("3 broken guest 3 physical 15", ("physical", 63, 5)),
    ("3 broken page 63", ("owner", 63, 2)),
    ("4 broken page 0 address 1", ("entry", 1, 5)),
    ("4 broken page 63 address 63", ("entry", 4095, 9)),
    ("5 broken guest 2", ("current", 2, 15)),
    ("6 broken page 8", ("entry", 1, 9)),
    ("7 broken set 0 way 0", ("cacheable", 8, 0)),
    ("7 broken set 3 way 1", ("linePage", 7, 9), ("lineAddress", 7, 3)),
    ("8 broken slot 7", ("slotPage", 7, 9)),
    ("9 broken set 7 way 0", ("linePage", 14, 9)),
    ("9 broken set 7 way 1", ("linePage", 15, 9)),
    ("9 broken set 7 history", ("history", 7, 1)),
    ("10 broken guest 1", ("callA", 1, 1)),
    ("10 broken set 7 way 1", ("line", 63, 1)),
    ("10 broken slot 5", ("slotAddress", 5, 1)),
    ("11 broken set 0 way 0", ("policy", 0, 1)),
]
DAMAGE += [(f"10 broken {field} {size - 1}", (field, size - 1, 255)) for field, (_, size) in FIELDS.items() if field not in VALUES]


def changed(image, changes):
    image = bytearray(image)
    for field, place, byte in changes:
        image[FIELDS[field][0] + place] = byte
    return bytes(image)


def first_version(image):
    """The same state as version 1 has it, without the policy."""
    return changed(image[:-1], [("version", 0, 1)])


whole = Path(source).read_bytes()
through = changed(whole, [("policy", 0, 1)])
assert len(whole) == END == sum(FIELDS["policy"])
images = {line: changed(whole, changes) for line, *changes in DAMAGE}
images |= {f"{line}, version 1": first_version(images[line]) for line, *_ in DAMAGE[:20:4]}
images |= {
    "11 holds, valid": whole,
    "11 holds, version 1": first_version(whole),
    "11 holds, version 1 has no policy": first_version(through),
    "10 broken owner 0, all bytes 255": whole[:5] + bytes([255]) * (END - 5),
    "2 broken page 0, all bytes 0": whole[:5] + bytes(END - 5),
    "refused 16, empty": b"",
    "refused 16, torn": whole[:4000],
    "refused 16, a byte less": whole[:-1],
    "refused 16, a byte more": whole + b"\0",
    "refused 16, longer than is read": whole * 9,
    "refused 16, damaged and torn": through[:-1],
    "refused 16, another mark": changed(whole, [("mark", 2, 0)]),
    "refused 16, version 1 with a policy": first_version(whole) + b"\0",
    "refused 16, version 3": changed(whole, [("version", 0, 3)]),
}
folder.mkdir()
for name, image in images.items():
    (folder / name).write_bytes(image)
