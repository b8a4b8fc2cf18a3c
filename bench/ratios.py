#!/usr/bin/env python3
"""Times `mao --mao=NOPKILL`, scripts of more steps, and reading alone, beside `cat` and `as` on texts in GCC's form, as ratios in one run.

Usage: bench/ratios.py [PROGRAM [READER]]   (default: ./mao, crates/reading_bench/out/reading_bench)

Both are built first, by `make bench`. READER cuts a text and reads each entry, and keeps none. What isn't there is skipped.
"""

import os
import shutil
import subprocess
import sys
import tempfile
import time

MIB = 1 << 20

FUNCTION = """\
\t.p2align 4
\t.globl\t_ZN8examples7numbers13sum_of_valuesEPKij{k}
\t.type\t_ZN8examples7numbers13sum_of_valuesEPKij{k}, @function
_ZN8examples7numbers13sum_of_valuesEPKij{k}:
.LFB{k}:
\t.cfi_startproc
\tendbr64
\ttestl\t%esi, %esi
\tjle\t.L{k}_4
\tmovslq\t%esi, %rsi
\txorl\t%eax, %eax
\tleaq\t(%rdi,%rsi,4), %rdx
\tnop
\t.p2align 4,,10
\t.p2align 3
.L{k}_3:
\tmovslq\t(%rdi), %rcx
\taddq\t$4, %rdi
\taddq\t%rcx, %rax
\tcmpq\t%rdx, %rdi
\tjne\t.L{k}_3
\tret
.L{k}_4:
\txorl\t%eax, %eax
\tret
\t.cfi_endproc
.LFE{k}:
\t.size\t_ZN8examples7numbers13sum_of_valuesEPKij{k}, .-_ZN8examples7numbers13sum_of_valuesEPKij{k}
"""

# A short one, as GCC writes it without unwind tables.
SHORT_FUNCTION = """\
\t.p2align 4
\t.globl\tsum_of_{k}
\t.type\tsum_of_{k}, @function
sum_of_{k}:
\tmovslq\t%esi, %rax
\tleaq\t(%rdi,%rax,4), %rdx
\tcmpl\t$16, %esi
\tnop
\taddq\t$4, %rdi
\taddq\t%rdx, %rax
\tret
\t.size\tsum_of_{k}, .-sum_of_{k}
"""


def gcc_form(size, function=FUNCTION):
    """Functions in GCC's form, up to a size in bytes."""
    parts, length, k = ["\t.file\t\"bench.c\"\n\t.text\n"], 24, 0
    while length < size - 600:
        part = function.replace("{k}", str(k))
        parts.append(part)
        length += len(part)
        k += 1
    return "".join(parts)


def with_comments(size):
    """One function of at most 200,000 entries, whose lines carry long comments."""
    lines = 190_000
    fill = "x" * max(1, size // lines - 24)
    kinds = ["\taddl $1, %eax", "\tnop", "\tmovq %rax, %rcx", "\taddq $-7, %rdx"]
    body = "".join(f"{kinds[i % 4]} # {fill}\n" for i in range(lines))
    return f"\t.text\n\t.p2align 4\n\t.type f, @function\nf:\n{body}\tret\n\t.size f, .-f\n"


def with_long_names(size):
    """One function of at most 200,000 entries, whose labels and jumps have long names."""
    count = 95_000
    fill = "_" + "x" * max(1, size // (2 * count) - 16)
    lines = [f".L{i}{fill}:\n\tje .L{i * 7 % count}{fill}\n" for i in range(count)]
    return f"\t.text\n\t.p2align 4\n\t.type f, @function\nf:\n{''.join(lines)}\tret\n\t.size f, .-f\n"


def timed(command, path, runs=3):
    """The least seconds of some runs, or None where one fails."""
    best = None
    for _ in range(runs):
        with open(path, "rb") as text:
            start = time.perf_counter()
            done = subprocess.run(command, stdin=text, stdout=subprocess.DEVNULL, stderr=subprocess.DEVNULL)
            took = time.perf_counter() - start
        if done.returncode != 0:
            return None
        best = took if best is None else min(best, took)
    return best


PEAK = """\
import resource, subprocess, sys
with open(sys.argv[1], "rb") as text:
    subprocess.run(sys.argv[2:], stdin=text, stdout=subprocess.DEVNULL, stderr=subprocess.DEVNULL)
print(resource.getrusage(resource.RUSAGE_CHILDREN).ru_maxrss * 1024)
"""


def peak_of(command, path):
    """The peak memory of one run in bytes, started from a small process: a child's peak counts its parent's memory."""
    return int(subprocess.run([sys.executable, "-c", PEAK, path, *command], capture_output=True, text=True).stdout)


def print_scripts(program, path):
    """Times scripts on one text. 32 steps do the work of one 32 times, and read and write once."""
    assembled = timed(["as", "-o", "/dev/null"], path, runs=2) if shutil.which("as") else None
    one = timed([program, "--mao=NOPKILL"], path)
    for name, script in [("NOPIN at density 10", "NOPIN"), ("32 steps", ":".join(["NOPIN", "NOPKILL"] * 16))]:
        own = timed([program, "--mao=" + script], path)
        if own is None or one is None:
            print(f"{name}: mao fails")
            continue
        line = f"GCC's form, 32 MiB, {name}: {own:.3f} s, {own / one:.2f} times NOPKILL alone"
        print(line + (f", {own / assembled:.3f} times as" if assembled else ""), flush=True)


def main():
    program = sys.argv[1] if len(sys.argv) > 1 else "./mao"
    if not os.access(program, os.X_OK):
        sys.exit(f"{program} isn't there: run `make mao` first")
    mao = [os.path.abspath(program), "--mao=NOPKILL"]
    reader = sys.argv[2] if len(sys.argv) > 2 else "crates/reading_bench/out/reading_bench"
    reads = [os.path.abspath(reader)] if os.access(reader, os.X_OK) else None
    small, large, short = gcc_form(MIB), gcc_form(32 * MIB - 64), gcc_form(32 * MIB - 800_000, SHORT_FUNCTION)
    # A name, what `mao` reads, and what `as` reads. A file that its first line freezes is read and copied, and no more.
    texts = [
        ("GCC's form, 1 MiB", small, small),
        ("GCC's form, 32 MiB", large, large),
        (f"GCC's form, 32 MiB, {short.count('.size'):,} functions", short, short),
        ("GCC's form, 32 MiB, read and copied", "\t.macro m\n" + large, large),
        ("long names, 31 MiB", with_long_names(31 * MIB), None),
        ("long comments, 31 MiB", with_comments(31 * MIB), None),
        ("2,000,000 newlines", "\n" * 2_000_000, None),
    ]
    per_byte = {}
    with tempfile.TemporaryDirectory() as folder:
        path = os.path.join(folder, "text.s")
        assembled_path = os.path.join(folder, "assembled.s")
        for name, text, other in texts:
            with open(path, "w") as out:
                out.write(text)
            with open(assembled_path, "w") as out:
                out.write(text if other is None else other)
            size = len(text)
            own = timed(mao, path)
            if own is None:
                print(f"{name}: mao fails")
                continue
            per_byte[name] = own / size
            line = f"{name}: {size} bytes, mao {own:.3f} s"
            copy = timed(["cat"], path) if shutil.which("cat") else None
            if copy:
                line += f", {own / copy:.1f} times cat"
            assembled = timed(["as", "-o", "/dev/null"], assembled_path, runs=2) if shutil.which("as") else None
            if assembled:
                line += f", {own / assembled:.3f} times as"
            line += f", peak memory {peak_of(mao, path) / size:.1f} times the input"
            alone = timed(reads, path) if reads else None
            if alone:
                line += f"; reading alone {alone:.3f} s" + (f", {alone / assembled:.3f} times as" if assembled else "")
            print(line, flush=True)
        with open(path, "w") as out:
            out.write(large)
        print_scripts(mao[0], path)
    small, large = per_byte.get("GCC's form, 1 MiB"), per_byte.get("GCC's form, 32 MiB")
    if small and large:
        print(f"cost per byte at 32 MiB: {large / small:.2f} times that at 1 MiB")


if __name__ == "__main__":
    main()
