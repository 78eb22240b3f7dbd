"""Shared by `tools/faults` and tools/sessions.py."""
import pathlib
import subprocess
import sys

ROOT = pathlib.Path(__file__).resolve().parent.parent


def fail(*parts):
    sys.exit("faults: " + " ".join(map(str, parts)))


def refusing_library(work):
    """Returns the library that makes requests for memory fail. It is built once in a folder."""
    library = work / "refuse.so"
    if not library.exists():
        subprocess.run(["cc", "-O1", "-fPIC", "-shared", "-o", library, ROOT / "tools/refuse.c"], check=True)
    return library
