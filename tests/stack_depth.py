"""Prints the deepest stack of each call in KiB, on x86-64 and on AArch64 under the emulator.

    stack_depth.py PROGRAM

PROGRAM is the harness's stack_files, which writes the files that take most stack. stack.c makes the calls.
"""

import os
import subprocess
import sys
import tempfile
from concurrent.futures import ThreadPoolExecutor

from processors import OTHER, OURS, PROCESSORS, build, run, source, stack_files, stream

SHALLOW = 16  # levels

TEXT = """\
The deepest stack of each call in KiB: on files of every depth, whose cache trees have up to 128 levels, and on those of
at most 16 levels. A call runs on a stack that was painted before, and what lost the paint is counted. AArch64 is
emulated (qemu-aarch64).
"""


def depths(command: list, file) -> dict:
    """The bytes of stack that each call takes on a file; the most where a call is made twice."""
    done = run(command, data=stream([file]))
    if done.status != 0:
        raise SystemExit(f"stack_depth: {file.name}: status {done.status}: {done.err.decode()}")
    names, figures = (line.split() for line in done.out.decode().splitlines())
    deepest = {}
    for name, figure in zip(names, figures):
        deepest[name] = max(deepest.get(name, 0), int(figure))
    return deepest


def measure(commands: dict, files: list) -> dict:
    """For each processor a list with the depths on each file."""
    with ThreadPoolExecutor(os.cpu_count()) as pool:
        tasks = {one: [pool.submit(depths, commands[one], file) for file in files] for one in PROCESSORS}
        for number, (task, file) in enumerate(zip(tasks[OTHER], files)):
            task.result()
            print(f"bench: stack-arm: {number + 1} of {len(files)}: {file.name}", file=sys.stderr)
        return {processor: [task.result() for task in list_] for processor, list_ in tasks.items()}


def table(files: list, measured: dict) -> str:
    columns = [(OURS, 128), (OTHER, 128), (OURS, SHALLOW), (OTHER, SHALLOW)]
    rows = [["Call", "x86-64, any depth", "AArch64, any depth", "x86-64, at most 16", "AArch64, at most 16"]]
    for call in measured[OURS][0]:
        row = [call]
        for processor, levels in columns:
            of_call = [found[call] for found, file in zip(measured[processor], files) if file.levels <= levels]
            row.append(f"{max(of_call) / 1024:.1f}")
        rows.append(row)
    widths = [max(len(row[k]) for row in rows) for k in range(len(columns) + 1)]
    lines = []
    for row in rows:
        cells = [row[0].ljust(widths[0]), *(cell.rjust(width) for cell, width in zip(row[1:], widths[1:]))]
        lines.append("| " + " | ".join(cells) + " |")
    rule = "|-" + "-" * widths[0] + "-|" + "".join("-" * (width + 1) + ":|" for width in widths[1:])
    return "\n".join([lines[0], rule, *lines[1:]])


def main() -> int:
    if len(sys.argv) != 2:
        print("usage: stack_depth.py PROGRAM", file=sys.stderr)
        return 2
    with tempfile.TemporaryDirectory() as folder:
        files = stack_files(sys.argv[1], folder)
    try:
        measured = measure(build("stack", source("stack.c")), files)
    except subprocess.SubprocessError as failure:
        raise SystemExit(f"stack_depth: {failure}") from None
    print(TEXT)
    print(table(files, measured))
    return 0


if __name__ == "__main__":
    sys.exit(main())
