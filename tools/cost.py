#!/usr/bin/env python3
"""Times single host actions: the library from C, and the second program's device from Rust.

Both programs print a median for each kind of action. They are run in turns, and the table has
the medians of those; instructions are counted by callgrind inside the programs' batches.
"""

import argparse
import re
import shutil
import statistics
import subprocess
import sys
from pathlib import Path

from bench import table_head, verdict, write_table

MARKS = ("<!-- cost table begins -->", "<!-- cost table ends -->")
LABELS = {
    "register-read": "a register read: Status",
    "register-write": "a register written: Sector Count",
    "word-read": "a word read",
    "word-write": "a word written",
    "last-word-read": "a block's last word read: the next sector is loaded",
    "last-word-write": "a block's last word written: the sector is stored",
    "command": "a Command: READ SECTORS, its first sector loaded",
    "bulk-read": "256 words read in one call",
    "words-read": "256 words read in 256 calls",
    "bulk-write": "256 words written in one call",
    "words-write": "256 words written in 256 calls",
    "one-read": "one word read by the call for many",
    "one-write": "one word written by the call for many",
    "nothing": "that call with room for no word",
    "memcpy": "memcpy of 512 bytes",
}
SINGLE_ACTIONS = list(LABELS)[:7]
# Each block, and the same call with one word, which is shown beside the target.
BLOCKS = {"bulk-read": "one-read", "bulk-write": "one-write"}
SINGLE_TARGET = 100
BLOCK_TARGET = 1.5
COUNTED_ROUNDS = 50


def parse_arguments():
    parser = argparse.ArgumentParser(description=__doc__)
    parser.add_argument("cost", help="the program in C, over the library")
    parser.add_argument("second", help="the same over the second program's device")
    parser.add_argument("--folder", type=Path, default=Path("build/bench"))
    parser.add_argument("--table", type=Path, default=Path("docs/SPEED.md"))
    parser.add_argument("--runs", type=int, default=11, help="runs of each program")
    return parser.parse_args()


def one_run(program):
    printed = subprocess.run([program], stdout=subprocess.PIPE, text=True, check=True).stdout
    return {kind: float(time) for kind, time in (line.split("\t") for line in printed.splitlines())}


def median_times(arguments):
    """Nanoseconds by kind of both programs, which take turns."""
    runs = ([], [])
    for _ in range(arguments.runs):
        for place, program in enumerate((arguments.cost, arguments.second)):
            runs[place].append(one_run(program))
    return [{kind: statistics.median(run[kind] for run in own) for kind in own[0]} for own in runs]


def instructions(program, kind, folder):
    """Instructions an action of the kind, the loop around the call included."""
    output = folder / "callgrind.out"
    command = ["valgrind", "--tool=callgrind", f"--callgrind-out-file={output}", "--toggle-collect=*batch_*"]
    run = subprocess.run([*command, program, kind, str(COUNTED_ROUNDS)], capture_output=True, text=True)
    output.unlink(missing_ok=True)
    found = re.search(r"Collected\s*:\s*(\d+)", run.stderr)
    if run.returncode != 0 or not found:
        sys.exit(f"callgrind failed on {program} {kind}: {run.stderr[-500:]}")
    return int(found.group(1)) / int(run.stdout)


def measure(arguments):
    """(times, instructions) of both programs, each by kind."""
    times = median_times(arguments)
    if not shutil.which("valgrind"):
        return times, ({}, {})
    programs = (arguments.cost, arguments.second)
    return times, [{kind: instructions(p, kind, arguments.folder) for kind in own} for p, own in zip(programs, times)]


def in_yardsticks(block, times, call="register-read"):
    """A block's time in times of one copy of it and that call together."""
    return times[block] / (times["memcpy"] + times[call])


def target_of(kind, times):
    if kind in SINGLE_ACTIONS:
        return f"{SINGLE_TARGET}"
    return f"{BLOCK_TARGET * times[kind] / in_yardsticks(kind, times):.0f}" if kind in BLOCKS else ""


def table_lines(times, counts):
    for kind, label in LABELS.items():
        cells = [label]
        cells += [f"{own[kind]:.1f}" if kind in own else "" for own in times]
        cells += [target_of(kind, times[0])]
        cells += [f"{own[kind]:.0f}" if kind in own else "" for own in counts]
        yield "| " + " | ".join(cells) + " |"


def table_text(arguments, times, counts):
    heads = ["action", "library ns", "second ns", "target ns", "library instr.", "second instr."]
    ratios = [in_yardsticks(block, times[0]) for block in BLOCKS]
    by_one_word = [in_yardsticks(block, times[0], call) for block, call in BLOCKS.items()]
    return "\n".join([
        f"Medians of {arguments.runs} runs of each program, taking turns; each run gives the median of 1,001 rounds in which the kinds take "
        f"turns. A block in one call takes {ratios[0]:.2f} (read) and {ratios[1]:.2f} (written) of memcpy and a register read together, "
        f"target {BLOCK_TARGET}; and {by_one_word[0]:.2f} and {by_one_word[1]:.2f} of memcpy and the same call with one word.",
        "",
        *table_head(heads),
        *table_lines(times, counts),
        "",
        "Missed: " + "; ".join(missed_targets(times[0])) + "." if any(missed_targets(times[0])) else "All targets are met.",
    ])


def missed_targets(times):
    for kind in SINGLE_ACTIONS:
        if times[kind] >= SINGLE_TARGET:
            yield f"{LABELS[kind]}: {times[kind]:.1f} ns, target under {SINGLE_TARGET}"
    for block in BLOCKS:
        ratio = in_yardsticks(block, times)
        if ratio > BLOCK_TARGET:
            yield f"{LABELS[block]}: {ratio:.2f} of memcpy and a register read, target {BLOCK_TARGET}"


def main():
    arguments = parse_arguments()
    arguments.folder.mkdir(parents=True, exist_ok=True)
    times, counts = measure(arguments)
    table = table_text(arguments, times, counts)
    print(table)
    write_table(arguments.table, table, MARKS)
    return verdict(list(missed_targets(times[0])))


if __name__ == "__main__":
    sys.exit(main())
