"""Has the program read every row of the newest copy of a club's archive. Run once a day by life-sound.timer, as the
user of the archive.

    life-sound PROGRAM ARCHIVE COPIES

It runs `PROGRAM check` on the newest copy of ARCHIVE in the folder COPIES, and prints the program's lines. If the
copy is not sound or can't be checked, a line on standard error says why, and the status is 1.
"""
import argparse
import os
import sys

from life_operate.archive import Copies, Refused, checked_by_program, line_of


def newest_copy(archive: str, folder: str) -> str:
    """The path of the newest copy. Copies with a time in the future come from a clock that was wrong."""
    copies = Copies(archive, folder)
    if not (stamps := copies.past()):
        raise Refused(f"there is no copy in {folder}")
    return copies.path(stamps[0])


def checked(program: str, copy: str) -> str:
    """The program's line about a sound copy."""
    status, said, errors = checked_by_program(program, "--db", copy)
    if status and said:
        raise Refused(f"{copy} is not sound: {said}")
    if status:
        raise Refused(f"{copy} can't be checked: {errors or f'the program ended with {status}'}")
    return f"{copy}: {said}"


def main() -> None:
    parser = argparse.ArgumentParser(description=__doc__, formatter_class=argparse.RawDescriptionHelpFormatter)
    for name in ("program", "archive", "copies"):
        parser.add_argument(name, metavar=name.upper())
    words = parser.parse_args()
    try:
        copy = newest_copy(os.path.realpath(words.archive), os.path.realpath(words.copies))
        print(f"life-sound: {checked(words.program, copy)}")
    except (OSError, Refused) as fault:
        sys.exit(f"life-sound: {line_of(fault)}")
