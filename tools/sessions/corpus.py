"""The recordings of a folder: made from their texts, and checked against files and programs."""
import subprocess

from sessions import form
from sessions.form import BadInput
from sessions.running import run_in_pieces, run_whole
from sessions.text import decode, parse

TABLE_MARK = "## The recordings\n"


def load(home):
    sessions, faults = [], []
    for path in sorted(home.glob("*.txt")):
        try:
            sessions.append(parse(decode(path.read_bytes(), path.name, "ascii"), path.name))
        except BadInput as reason:
            faults.append(str(reason))
    if not sessions and not faults:
        faults.append(f"{home.name}: no texts here")
    if faults:
        raise BadInput("\n".join(faults))
    return sessions


def table(sessions):
    rows = [f"| `{session.name[:-4]}` | {session.about} |\n" for session in sessions]
    return f"{TABLE_MARK}\n{len(rows)} recordings.\n\n| Name | Shows |\n|---|---|\n" + "".join(rows)


def wanted_files(home, sessions):
    """What make writes and check finds: file name -> bytes."""
    files = {}
    for session in sessions:
        files[session.name[:-4] + ".rec"] = session.recording
        files[session.name[:-4] + ".reply"] = session.reply
    readme = home / "README.md"
    prose = decode(readme.read_bytes(), readme.name, "ascii") if readme.exists() else ""
    files["README.md"] = (prose.partition(TABLE_MARK)[0] + table(sessions)).encode("ascii")
    return files


def make(home):
    sessions = load(home)
    files = wanted_files(home, sessions)
    for name, data in files.items():
        (home / name).write_bytes(data)
    for path in strays(home, files):
        path.unlink()
    print(f"{len(sessions)} recordings made")
    return 0


def strays(home, files):
    return [path for path in sorted([*home.glob("*.rec"), *home.glob("*.reply")])
            if path.name not in files]


def file_differences(home, sessions):
    files = wanted_files(home, sessions)
    found = [f"{path.name}: no text of that name" for path in strays(home, files)]
    for name, data in files.items():
        path = home / name
        if not path.exists():
            found.append(f"{name}: missing; run make")
        elif path.read_bytes() != data:
            found.append(f"{name}: is not what the texts give; run make")
    return found


def step_text(data):
    if not data:
        return "nothing"
    if answer := form.answer_of(data):
        return f"answer {answer[0]} value {answer[1]:04X}"
    return "fault" if data == form.FAULT else data[:16].hex(" ")


def difference(session, given):
    """Where the given reply first leaves the expected one, or None."""
    wanted = session.reply
    if given == wanted:
        return None
    if given[:1] != form.VERSION:
        return f"{session.name}:1: expected version 01, given {given[:8].hex(' ') or 'nothing'}"
    place, length = 1, form.STEP_LENGTH
    while place < len(wanted) and wanted[place:place + length] == given[place:place + length]:
        place += length
    step = (place - 1) // length
    if place >= len(wanted):
        return f"{session.name}: expected the end after record {step}, given {given[len(wanted):][:16].hex(' ')}"
    return (f"{session.name}:{session.lines[step]}: record {step + 1}: "
            f"expected {step_text(wanted[place:place + length])}, "
            f"given {step_text(given[place:place + length])}")


def program_differences(program, sessions):
    """Where a program's replies differ; one that can't be run or has no end isn't asked again."""
    found = []
    for session in sessions:
        ways = [("", run_whole)]
        if len(session.recording) <= 400:
            ways.append((" (in 1-byte pieces)", run_in_pieces))
        for way, run in ways:
            try:
                given, code = run(program, session.recording)
            except (OSError, subprocess.TimeoutExpired) as reason:
                return found + [f"{program}: {session.name}: {reason}"]
            text = difference(session, given)
            killed = f" (signal {-code})" if code < 0 else ""
            if text or killed:
                found.append(f"{program}: {text or session.name}{way}{killed}")
    return found


def check(home, programs):
    sessions = load(home)
    found = file_differences(home, sessions)
    for program in programs:
        found += program_differences(program, sessions)
    for text in found:
        print(text)
    print(f"{len(sessions)} recordings, {len(programs)} programs, {len(found)} differences")
    return 1 if found else 0
