#!/usr/bin/env python3
"""Compiles each C file of examples/ with and without `mao` between compiler and assembler, and compares what the two programs print.

Usage: bench/same_output.py [PROGRAM]   (default: ./mao)

The program is built first, by `make mao`. Where GCC isn't installed nothing is done.
"""

import glob
import os
import shutil
import subprocess
import sys
import tempfile

LEVELS = ["-O0", "-O1", "-O2", "-O3", "-Os"]


def assembled(text, path):
    """Assembles and links a text; the path of the program."""
    source = path + ".s"
    with open(source, "wb") as out:
        out.write(text)
    subprocess.run(["gcc", "-no-pie", "-o", path, source], check=True)
    return path


def printed(path):
    return subprocess.run([path], capture_output=True, check=True, timeout=10).stdout


def main():
    program = os.path.abspath(sys.argv[1] if len(sys.argv) > 1 else "./mao")
    if shutil.which("gcc") is None:
        print("gcc isn't installed: skipped")
        return
    if not os.access(program, os.X_OK):
        sys.exit(f"{program} isn't there: run `make mao` first")
    here = os.path.dirname(os.path.abspath(__file__))
    differ = 0
    with tempfile.TemporaryDirectory() as folder:
        for source in sorted(glob.glob(os.path.join(here, "..", "examples", "*.c"))):
            for level in LEVELS:
                compiled = subprocess.run(["gcc", level, "-fno-pie", "-S", "-o", "-", source], capture_output=True, check=True).stdout
                filtered = subprocess.run([program, "--mao=NOPKILL"], input=compiled, capture_output=True, check=True)
                before = printed(assembled(compiled, os.path.join(folder, "before")))
                after = printed(assembled(filtered.stdout, os.path.join(folder, "after")))
                same = before == after
                differ += not same
                step = filtered.stderr.decode().splitlines()[-1]
                print(f"{os.path.basename(source)} {level}: {'same' if same else 'DIFFERENT'}; {step}")
    if differ:
        sys.exit(f"{differ} programs print something else")


if __name__ == "__main__":
    main()
