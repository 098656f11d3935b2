#!/usr/bin/env python3
"""Times the two replay programs on five recordings and counts instructions per record.

Each run reads its recording from a file and writes to /dev/null, so that neither a pipe
nor a disk is timed. The programs take turns, and the ratio is that of the median wall
times; user CPU time stands beside it.
"""

import argparse
import os
import re
import shutil
import statistics
import subprocess
import sys
import time
from pathlib import Path

KINDS = ("read", "write", "mixed", "single", "poll")
RATIO_TARGETS = {"read": 1.3, "write": 1.3, "mixed": 1.5, "single": 1.5, "poll": 1.5}
INSTRUCTION_TARGET = 90
ANSWER_BYTES = 5
INSTRUCTION_RECORDING_BYTES = 1_000_000
BEGIN_MARK = "<!-- bench table begins -->"
END_MARK = "<!-- bench table ends -->"
INSTALL_HINT = "valgrind is missing; make bench installs it (tools/install.sh)"


def parse_arguments():
    parser = argparse.ArgumentParser(description=__doc__)
    parser.add_argument("replay", help="the proved program")
    parser.add_argument("second", help="the second program")
    parser.add_argument("differential", help="the program that makes recordings")
    parser.add_argument("--folder", type=Path, default=Path("build/bench"))
    parser.add_argument("--table", type=Path, default=Path("docs/SPEED.md"))
    parser.add_argument("--runs", type=int, default=20, help="runs of each program")
    parser.add_argument("--size", type=int, default=30_000_000, help="bytes a recording")
    return parser.parse_args()


def make_recording(differential, kind, size, folder):
    """Makes the recording anew each time, so that an old one is never timed."""
    path = folder / f"{kind}-{size}.rec"
    with open(path, "wb") as output:
        subprocess.run([differential, "bench-recording", kind, str(size)], stdout=output, check=True)
    return path


def reply_to(program, recording, folder):
    path = folder / "reply.tmp"
    with open(recording, "rb") as source, open(path, "wb") as output:
        subprocess.run([program], stdin=source, stdout=output, check=True)
    reply = path.read_bytes()
    path.unlink()
    return reply


def checked_record_count(arguments, recording):
    """Records of a recording both programs answer alike; else the times would compare different work."""
    first = reply_to(arguments.replay, recording, arguments.folder)
    second = reply_to(arguments.second, recording, arguments.folder)
    if first != second:
        sys.exit(f"{recording.name}: the replies differ, so there is nothing to time")
    if len(first) % ANSWER_BYTES != 1:
        sys.exit(f"{recording.name}: the reply ends in a fault")
    return len(first) // ANSWER_BYTES


def timed_run(program, recording):
    """Wall and user CPU seconds of one run."""
    with open(recording, "rb") as source, open(os.devnull, "wb") as output:
        started = time.perf_counter()
        child = subprocess.Popen([program], stdin=source, stdout=output)
        _, status, usage = os.wait4(child.pid, 0)
        wall = time.perf_counter() - started
    child.returncode = os.waitstatus_to_exitcode(status)
    if child.returncode != 0:
        sys.exit(f"{program} ended with {child.returncode} on {recording.name}")
    return wall, usage.ru_utime


def interleaved_times(arguments, recording):
    """Median wall and CPU times of both programs, taking turns so that noise hits both."""
    programs = (arguments.replay, arguments.second)
    for program in programs:
        timed_run(program, recording)
    times = ([], [])
    for _ in range(arguments.runs):
        for place, program in enumerate(programs):
            times[place].append(timed_run(program, recording))
    return [[statistics.median(column) for column in zip(*runs)] for runs in times]


def instructions(program, recording, folder):
    """All instructions of one run, start-up included."""
    output = folder / "callgrind.out"
    command = ["valgrind", "--tool=callgrind", f"--callgrind-out-file={output}", program]
    with open(recording, "rb") as source:
        run = subprocess.run(command, stdin=source, stdout=subprocess.DEVNULL, stderr=subprocess.PIPE)
    output.unlink(missing_ok=True)
    found = re.search(rb"Collected\s*:\s*(\d+)", run.stderr)
    if run.returncode != 0 or not found:
        sys.exit(f"callgrind failed on {program}: {run.stderr.decode(errors='replace')[-500:]}")
    return int(found.group(1))


def instructions_per_record(arguments, kind):
    """Counted for both programs on a short recording of the kind, or None without valgrind."""
    if not shutil.which("valgrind"):
        return None
    size = INSTRUCTION_RECORDING_BYTES
    recording = make_recording(arguments.differential, kind, size, arguments.folder)
    records = checked_record_count(arguments, recording)
    programs = (arguments.replay, arguments.second)
    return [instructions(program, recording, arguments.folder) / records for program in programs]


def measure(arguments, kind):
    recording = make_recording(arguments.differential, kind, arguments.size, arguments.folder)
    records = checked_record_count(arguments, recording)
    first, second = interleaved_times(arguments, recording)
    return {
        "kind": kind,
        "records": records,
        "bytes": recording.stat().st_size,
        "replay": first,
        "second": second,
        "ratio": first[0] / second[0],
        "cpu_ratio": first[1] / second[1] if second[1] > 0 else float("nan"),
        "instructions": instructions_per_record(arguments, kind),
    }


def missed_targets(row):
    missed = []
    target = RATIO_TARGETS[row["kind"]]
    if row["ratio"] > target:
        missed.append(f"{row['kind']}: {row['ratio']:.2f} times second, target {target}")
    if row["instructions"] and row["instructions"][0] > INSTRUCTION_TARGET:
        counted = f"{row['instructions'][0]:.1f} instructions a record"
        missed.append(f"{row['kind']}: {counted}, target {INSTRUCTION_TARGET}")
    return missed


def table_line(row):
    milliseconds = [f"{seconds * 1000:.1f}" for seconds in (*row["replay"], *row["second"])]
    instructions = ["-", "-"]
    if row["instructions"]:
        instructions = [f"{count:.1f}" for count in row["instructions"]]
    rate = row["bytes"] / row["replay"][0] / 1e6
    cells = [row["kind"], f"{row['records']:,}", milliseconds[0], milliseconds[2]]
    cells += [f"{row['ratio']:.2f}", f"{RATIO_TARGETS[row['kind']]}", milliseconds[1], milliseconds[3]]
    cells += [f"{row['cpu_ratio']:.2f}", f"{rate:.0f}", *instructions]
    return "| " + " | ".join(cells) + " |"


def table_head(heads):
    """The lines above a table's rows: names, the first column's at the left, and the line below them."""
    return ["| " + " | ".join(heads) + " |", "|---" + "|--:" * (len(heads) - 1) + "|"]


def table_text(rows, arguments):
    heads = ["recording", "records", "replay ms", "second ms", "ratio", "target", "replay CPU ms"]
    heads += ["second CPU ms", "CPU ratio", "replay MB/s", "replay instr./record", "second instr./record"]
    lines = [
        f"Medians of {arguments.runs} runs of each program, taking turns; recordings of about "
        f"{arguments.size / 1e6:.0f} MB read from a file, replies to /dev/null. Instructions by "
        f"callgrind on recordings of about {INSTRUCTION_RECORDING_BYTES / 1e6:.0f} MB, start-up "
        f"included; target at most {INSTRUCTION_TARGET} for replay.",
        "",
        *table_head(heads),
    ]
    return "\n".join(lines + [table_line(row) for row in rows])


def write_table(path, table, marks=(BEGIN_MARK, END_MARK)):
    """Replaces what stands between the marks, or adds the marks at the end."""
    block = f"{marks[0]}\n{table}\n{marks[1]}"
    text = path.read_text() if path.exists() else "# Speed\n"
    begin, end = text.find(marks[0]), text.find(marks[1])
    if 0 <= begin < end:
        text = text[:begin] + block + text[end + len(marks[1]) :]
    else:
        text = f"{text.rstrip()}\n\n{block}\n"
    path.parent.mkdir(parents=True, exist_ok=True)
    path.write_text(text)


def verdict(missed):
    """Says what was missed, and the exit status that follows."""
    if not shutil.which("valgrind"):
        missed.append(f"instructions not counted: {INSTALL_HINT}")
    for line in missed:
        print(f"missed: {line}")
    return 1 if missed else 0


def main():
    arguments = parse_arguments()
    arguments.folder.mkdir(parents=True, exist_ok=True)
    if not shutil.which("valgrind"):
        print(INSTALL_HINT, file=sys.stderr)
    rows = []
    for kind in KINDS:
        rows.append(measure(arguments, kind))
        print(table_line(rows[-1]), flush=True)
    table = table_text(rows, arguments)
    print(f"\n{table}")
    write_table(arguments.table, table)
    missed = [line for row in rows for line in missed_targets(row)]
    return verdict(missed)


if __name__ == "__main__":
    sys.exit(main())
