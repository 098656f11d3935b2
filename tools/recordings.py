#!/usr/bin/env python3
"""Write, read and explain recordings of a guest's sessions, and keep those of recordings/.

  write TEXT [RECORDING]                 a text into a recording, to a file or standard output
  read RECORDING [REPLY|PROGRAM]         a recording into a text, with what the reply answers
  explain TEXT|RECORDING [REPLY|PROGRAM] record by record: what the host did, and what the answer means
  make                                   texts of recordings/ -> .rec, .reply and the table in README.md
  check [PROGRAM..]                      these files against the texts, then every PROGRAM against the replies

A - is standard input, and standard output where write names its RECORDING; explain takes a name that ends in .txt for a
text. A PROGRAM is an executable that gets the recording and gives its reply. recordings/README.md has the text form.
"""
import argparse
import contextlib
import os
import pathlib
import subprocess
import sys

from sessions import corpus, form
from sessions.explain import explain
from sessions.form import BadInput
from sessions.retell import retell
from sessions.running import run_whole
from sessions.text import decode, parse

HOME = pathlib.Path(__file__).resolve().parent.parent / "recordings"


@contextlib.contextmanager
def naming(name):
    """What is wrong in here is wrong with the file, or the program, of that name."""
    try:
        yield
    except BadInput as reason:
        raise BadInput(f"{name}: {reason}") from None
    except OSError as reason:
        raise BadInput(f"{name}: {reason.strerror}") from None


def name_of(path):
    return "standard input" if path == "-" else path


def read_bytes(path):
    with naming(name_of(path)), contextlib.nullcontext(sys.stdin.buffer) if path == "-" else open(path, "rb") as file:
        data = file.read(form.LONGEST + 1)
        if len(data) > form.LONGEST:
            raise BadInput(f"longer than {form.LONGEST:,} bytes")
        return data


def read_session(path):
    return parse(decode(read_bytes(path), name_of(path), "utf-8-sig"), name_of(path), strict=False)


def reply_of(other, recording):
    """What a file holds, or what a program replies to the recording; None where neither is named."""
    if other is None:
        return None
    if not os.path.isfile(other) or not os.access(other, os.X_OK) or other.endswith(".reply"):
        return read_bytes(other)
    reply, code = run_whole(other, recording)
    if code < 0:
        raise BadInput(f"{other}: ended by signal {-code}")
    return reply


def job_write(chosen):
    recording = read_session(chosen.text).recording
    if chosen.recording not in (None, "-"):
        with naming(chosen.recording):
            pathlib.Path(chosen.recording).write_bytes(recording)
    else:
        sys.stdout.buffer.write(recording)
        sys.stdout.buffer.flush()
    return 0


def job_read(chosen):
    recording = read_bytes(chosen.recording)
    reply = reply_of(chosen.other, recording)
    with naming(chosen.other):
        text = retell(recording, reply)
    print(text, end="")
    return 0


def job_explain(chosen):
    session = read_session(chosen.session) if chosen.session.endswith(".txt") else None
    recording = session.recording if session else read_bytes(chosen.session)
    reply = reply_of(chosen.other, recording)
    with naming(chosen.other):
        lines, clashes = explain(recording, reply, session.steps if session else ())
    print("\n".join(lines))
    if clashes:
        print(f"answers that are not as the text expects: {clashes}", file=sys.stderr)
    return 1 if clashes else 0


def command_line():
    parser = argparse.ArgumentParser(description=__doc__, formatter_class=argparse.RawDescriptionHelpFormatter)
    parser.add_argument("--home", type=pathlib.Path, default=HOME, help="the folder of make and check")
    jobs = parser.add_subparsers(dest="job", required=True)

    def add(name, job, *arguments):
        added = jobs.add_parser(name)
        added.set_defaults(run=job)
        for place, metavar, number in arguments:
            added.add_argument(place, metavar=metavar, nargs=number)

    add("write", job_write, ("text", "TEXT", None), ("recording", "RECORDING", "?"))
    add("read", job_read, ("recording", "RECORDING", None), ("other", "REPLY|PROGRAM", "?"))
    add("explain", job_explain, ("session", "TEXT|RECORDING", None), ("other", "REPLY|PROGRAM", "?"))
    add("make", lambda chosen: corpus.make(chosen.home))
    add("check", lambda chosen: corpus.check(chosen.home, chosen.program), ("program", "PROGRAM", "*"))
    return parser


def plain(reason):
    if isinstance(reason, OSError):
        return f"{reason.filename or 'standard output'}: {reason.strerror}"
    if isinstance(reason, subprocess.TimeoutExpired):
        return f"{reason.cmd[0]}: no end after {reason.timeout} s"
    return str(reason)


def main(arguments):
    chosen = command_line().parse_args(arguments)
    try:
        status = chosen.run(chosen)
        sys.stdout.flush()
        return status
    except (BadInput, OSError, subprocess.TimeoutExpired) as reason:
        if isinstance(reason, OSError) and not reason.filename:  # of an open stream; the end of the program is not to try it again
            os.dup2(os.open(os.devnull, os.O_WRONLY), sys.stdout.fileno())
        if not isinstance(reason, BrokenPipeError):  # else the reader has seen enough
            print(plain(reason), file=sys.stderr)
        return 1


if __name__ == "__main__":
    sys.exit(main(sys.argv[1:]))
