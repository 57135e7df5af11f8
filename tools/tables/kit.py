"""The kit that the repository is checked with, the one line of the file KIT, in the documents that name it."""
from __future__ import annotations

import re

from .texts import Fault, Read

PATH = "KIT"
NAME = r"rattle-kit-[0-9]+[a-z]*"
# What comes before it and after it in each file.
PLACES = {
    "README.md": [("the Rattle kit, `", "` or later"), ("**The kit** `", "`")],
    "docs/PROOFS.md": [("**The kit** `", "`"), ("The kit **", "**")],
}


def read_kit(read: Read) -> str:
    line = read(PATH)
    if not re.fullmatch(NAME + "\n", line):
        raise Fault(f"{PATH}: not the name of a kit")
    return line.rstrip("\n")
