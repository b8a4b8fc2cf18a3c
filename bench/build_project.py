#!/usr/bin/env python3
"""Builds a C project twice, as it is and through `mao`, runs the project's own tests on both, and compares what they say.

Usage: bench/build_project.py FOLDER [--mao PROGRAM] [--script SCRIPT] [--build COMMAND] [--test COMMAND]

FOLDER is the source of a project whose makefile takes CC, as zlib, lz4 or bzip2 are. It is copied and left as it is. The
commands are words of a shell; {cc} stands for the compiler. By default `make -j4 CC={cc}` and `make test CC={cc}` are run.
Where gcc or make isn't installed nothing is done.
"""

import argparse
import os
import re
import shutil
import subprocess
import sys
import tempfile

HERE = os.path.dirname(os.path.abspath(__file__))


def run(command, folder, compiler, environment):
    """Runs a command line; its status and what it printed."""
    line = command.replace("{cc}", f"'{compiler}'")
    done = subprocess.run(["sh", "-c", line], cwd=folder, env=environment, capture_output=True, text=True, errors="replace")
    return done.returncode, done.stdout + done.stderr


def edits(notes):
    """The functions that were left alone, by cause, and the edits of all texts."""
    causes = {}
    total = 0
    texts = 0
    for line in notes.splitlines():
        cause = re.search(r" unchanged: ([a-z ]+)", line)
        step = re.search(r": step \d+ \w+: (\d+) edits$", line)
        if cause:
            causes[cause.group(1)] = causes.get(cause.group(1), 0) + 1
        if step:
            texts += 1
            total += int(step.group(1))
    return texts, total, causes


def main():
    parser = argparse.ArgumentParser()
    parser.add_argument("folder")
    parser.add_argument("--mao", default="./mao")
    parser.add_argument("--script", default="NOPKILL")
    parser.add_argument("--build", default="make -j4 CC={cc}")
    parser.add_argument("--test", default="make test CC={cc}")
    words = parser.parse_args()
    for tool in ("gcc", "make"):
        if shutil.which(tool) is None:
            print(f"{tool} isn't installed: skipped")
            return
    program = os.path.abspath(words.mao)
    if not os.access(program, os.X_OK):
        sys.exit(f"{program} isn't there: run `make mao` first")
    with tempfile.TemporaryDirectory() as work:
        wrapper = os.path.join(work, "wrapper")
        os.mkdir(wrapper)
        os.symlink(os.path.join(HERE, "..", "tools", "mao-as"), os.path.join(wrapper, "as"))
        notes = os.path.join(work, "notes")
        plain = dict(os.environ)
        through = dict(os.environ, MAO=words.script, MAO_PROGRAM=program, MAO_NOTES=notes)
        results = []
        for name, compiler, environment in (("plain", "gcc", plain), ("mao", f"gcc -B{wrapper}/", through)):
            folder = os.path.join(work, name)
            shutil.copytree(words.folder, folder, symlinks=True)
            status, output = run(words.build, folder, compiler, environment)
            if status != 0:
                sys.exit(f"the build as {name} ended with {status}:\n{output[-2000:]}")
            said = [line for line in output.splitlines() if line.startswith("mao-as: ")]
            status, output = run(words.test, folder, compiler, environment)
            results.append(status)
            print(f"{name}: built; the tests ended with {status}")
            for line in said:
                print(line)
        with open(notes, encoding="utf-8", errors="replace") as file:
            texts, total, causes = edits(file.read())
        print(f"{texts} texts, {total} edits; left alone: {causes if causes else 'none'}")
        if results[0] != results[1]:
            sys.exit("the tests end otherwise through mao")


if __name__ == "__main__":
    main()
