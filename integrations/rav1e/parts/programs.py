"""Finds the built programs of this project."""
import hashlib
import os
import shutil
import sys

CRATES = os.path.normpath(os.path.join(os.path.dirname(os.path.abspath(__file__)), "../../../crates"))


def find(name):
    """The path of av1_vectors or av1_tools: $AV1_VECTORS or $AV1_TOOLS, else what `rt run` leaves, else that of $PATH."""
    given, built = os.environ.get(name.upper()), os.path.join(CRATES, name, "out", name)
    path = given or (built if os.access(built, os.X_OK) else shutil.which(name))
    if not path or not os.access(path, os.X_OK):
        print(f"missing: {given or name}\n`rt run` in crates/{name} builds it, a release has it in its folder bin; "
              f"${name.upper()} or $PATH says where it is", file=sys.stderr)
        sys.exit(3)
    return path


def checksum(path):
    """The SHA-256 of a program."""
    with open(path, "rb") as file:
        return hashlib.sha256(file.read()).hexdigest()
