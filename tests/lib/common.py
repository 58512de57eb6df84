# SPDX-License-Identifier: MIT OR Apache-2.0
"""For the scripts of tests/ and of bench/: the repository's folder, the commands that a script needs, the proved program."""
import shutil
import subprocess
import sys
from pathlib import Path

TOP = Path(__file__).resolve().parent.parent.parent


def needs(*commands):
    """Where one of them isn't here the script can't be tried, and ends with 77."""
    for command in commands:
        if not shutil.which(command):
            print(f"{sys.argv[0]}: can't be tried without {command}")
            sys.exit(77)


def proved_program():
    """The path of the proved program, which is proved and built first where it isn't."""
    done = subprocess.run([TOP / "bsc", "prove"], stdout=subprocess.PIPE, text=True)
    if done.returncode != 0:
        sys.exit(f"{sys.argv[0]}: there is no proved program")
    return Path(done.stdout.strip())


def refusing_library(folder):
    """Builds in this folder the library that, preloaded, refuses one allocation, and gives its path."""
    library = Path(folder) / "refuse.so"
    subprocess.run(["gcc", "-shared", "-fPIC", "-O1", "-o", library, TOP / "tests/lib/refuse.c", "-ldl"], check=True)
    return library
