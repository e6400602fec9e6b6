"""The programs that a package holds, and where they are."""
import os

NAMES = ("sip_replay", "sip_journal", "sip_page", "sip_diff", "sip_why")


def is_built(path):
    """Whether a file is a built program. The launchers at the root of a checkout have the names of programs, and are scripts."""
    if not os.path.isfile(path):
        return False
    with open(path, "rb") as file:
        return file.read(4) == b"\x7fELF"


def find(programs, name):
    """Returns the path of the program that a checkout, or a folder of programs, has of this name; None where none is built."""
    return next((it for it in (f"{programs}/crates/{name}/out/{name}", f"{programs}/{name}") if is_built(it)), None)
