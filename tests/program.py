#!/usr/bin/env python3
"""The replay program as a process: its streams, what it holds back, how it ends, what memory it takes.

    tests/program.py REPLAY SECOND DIFFERENTIAL     (at the repository's root)

SECOND gives the replies to expect and DIFFERENTIAL long recordings. Each check gives a list of complaints; one complaint
fails the run.
"""
import hashlib
import os
import re
import subprocess
import sys
import tempfile
import threading
import time

REPLAY, SECOND, DIFFERENTIAL = (os.path.abspath(path) for path in sys.argv[1:4])
PATIENCE = 10  # seconds, far above what any step takes
LIFETIME = 60  # seconds, after which a program that takes no input is ended, since a write to it would wait for ever
MEMORY = 4096  # KiB
LONG = 30_000_000  # bytes
CHUNK = 1 << 16
REPLY = 5  # bytes of a reply to a good record
FAULT = b'\0\1\5'


def recorded(name):
    with open(f'recordings/{name}.rec', 'rb') as f:
        return f.read()


def generated(kind, size):
    return subprocess.run([DIFFERENTIAL, 'bench-recording', kind, str(size)], stdout=subprocess.PIPE, check=True).stdout


def expected(recording):
    return subprocess.run([SECOND], input=recording, stdout=subprocess.PIPE, timeout=PATIENCE, check=True).stdout


class Replay:
    """A running program whose output a thread gathers, so that neither side waits for the other's pipe."""

    def __init__(self, keep=True):
        self.child = subprocess.Popen([REPLAY], stdin=subprocess.PIPE, stdout=subprocess.PIPE, bufsize=0)
        self.reply, self.digest, self.length, self.keep = bytearray(), hashlib.sha256(), 0, keep
        self.grown = threading.Condition()
        self.reader = threading.Thread(target=self.gather, daemon=True)
        self.reader.start()
        self.watch = threading.Timer(LIFETIME, self.child.kill)
        self.watch.start()

    def gather(self):
        while data := self.child.stdout.read(CHUNK):
            with self.grown:
                self.digest.update(data)
                self.length += len(data)
                if self.keep:
                    self.reply += data
                self.grown.notify()

    def send(self, data):
        """Hands bytes over; whether the program still takes them."""
        view = memoryview(data)
        try:
            while view:
                view = view[self.child.stdin.write(view):]
        except BrokenPipeError:
            return False
        return True

    def has_replied(self, length):
        with self.grown:
            return self.grown.wait_for(lambda: length <= self.length, PATIENCE)

    def highest_memory(self):
        """What an emulator takes by itself is not the program's."""
        emulated = os.path.basename(os.readlink(f'/proc/{self.child.pid}/exe')).startswith('qemu-')
        return highest_memory(self.child) - (emulator_memory() if emulated else 0)

    def end(self):
        """Ends the input; whether the program ended by itself."""
        self.child.stdin.close()
        ended = ends(self.child)
        self.watch.cancel()
        self.reader.join(PATIENCE)
        return ended


def ends(child):
    """Whether a program ends in time; one that does not is ended."""
    try:
        child.wait(PATIENCE)
        return True
    except subprocess.TimeoutExpired:
        child.kill()
        child.wait()
        return False


def highest_memory(child):
    with open(f'/proc/{child.pid}/status', encoding='ascii') as f:
        return int(re.search(r'VmHWM:\s*(\d+) kB', f.read()).group(1))


def emulator_memory():
    """What the emulator takes before the program's first instruction, where it waits for a debugger if it is told of one."""
    with tempfile.TemporaryDirectory() as folder:
        socket = os.path.join(folder, 'debugger')
        child = subprocess.Popen([REPLAY], stdin=subprocess.DEVNULL, stdout=subprocess.DEVNULL, env={**os.environ, 'QEMU_GDB': socket})
        began = time.monotonic()
        while not os.path.exists(socket) and time.monotonic() < began + PATIENCE:
            time.sleep(0.01)
        memory = highest_memory(child) if os.path.exists(socket) else 0
        child.kill()
        child.wait()
        return memory


def replied(recording, length):
    """The reply bytes that the first bytes of a good recording call for."""
    place, count = 1, 0
    while place + 2 <= length and (after := place + 2 + int.from_bytes(recording[place:place + 2], 'big')) <= length:
        place, count = after, count + 1
    return min(length, 1) + REPLY * count


def in_pieces(recording, size):
    """Sends a recording piece by piece, each only once all replies to those before it are there."""
    wanted, program = expected(recording), Replay()
    complaints = []
    for place in range(0, len(recording), size):
        sent = min(place + size, len(recording))
        due = replied(recording, sent)
        if not program.send(recording[place:sent]) or not program.has_replied(due):
            complaints = [f'pieces of {size}: {program.length} of {due} reply bytes after {sent} bytes']
            break
    if not program.end() or program.child.returncode != 0:
        complaints.append(f'pieces of {size}: ended with {program.child.returncode}')
    if not complaints and program.reply != wanted:
        complaints.append(f"pieces of {size}: the reply is not the second program's")
    return complaints


def nothing_is_held_back():
    short, long = recorded('command-read-and-write'), generated('mixed', 5 * CHUNK)
    sizes = [(short, size) for size in (1, 2, 3, 5, 7, 997)] + [(long, CHUNK + off) for off in (-1, 0, 1)]
    for recording, size in sizes:
        if complaints := in_pieces(recording, size):
            return complaints
    return []


def replies_before_a_fault_are_written():
    """A record that is cut short, or no record at all, after good ones."""
    good, complaints = recorded('command-read-and-write'), []
    for bad in (b'\0', b'\0\3\2\7', b'\0\1\x08', b'\0\0', b'\0\2\3\0', b'\xff\xff'):
        program = Replay()
        program.send(good + bad)
        if not program.has_replied(replied(good, len(good))):
            complaints.append(f'{bad.hex(" ")}: replies held back')
        if not program.end() or program.reply != expected(good) + FAULT:
            complaints.append(f'{bad.hex(" ")}: ends in {bytes(program.reply[-8:]).hex(" ")}')
    return complaints


def nothing_runs_after_a_fault():
    program, bad = Replay(), recorded('start-whole-case') + b'\0\1\x08'
    program.send(bad)
    for _ in range(100):
        program.send(recorded('command-read-and-write')[1:])
    ended = program.end()
    return [] if ended and program.reply == expected(bad) else [f'{len(program.reply)} reply bytes']


def short_inputs():
    """Document 01's cases, from a pipe, from a file, and from no file at all."""
    cases = {'': '01000105', '01': '01', '0100020107': '010003000050', '02': '01000105', '0100': '01000105'}
    complaints = []
    for recording, reply in cases.items():
        with tempfile.TemporaryFile() as file:
            file.write(bytes.fromhex(recording))
            file.seek(0)
            ways = [{'input': bytes.fromhex(recording)}, {'stdin': file}] + [{'stdin': subprocess.DEVNULL}] * (not recording)
            for way in ways:
                done = subprocess.run([REPLAY], stdout=subprocess.PIPE, timeout=PATIENCE, **way)
                if (done.stdout.hex(), done.returncode) != (reply, 0):
                    complaints.append(f'{recording or "nothing"} gives {done.stdout.hex()}, exit {done.returncode}')
    return complaints


def output_that_fails_hangs_nothing():
    """A full device, a pipe that nobody reads, an output that is not open; the input is longer than every buffer."""
    recording, complaints = generated('read', 10 * CHUNK), []
    unread, write_end = os.pipe()
    os.close(unread)
    with open('/dev/full', 'wb') as full, tempfile.TemporaryFile() as file:
        file.write(recording)
        for name, command, output in [('full', [REPLAY], full), ('closed pipe', [REPLAY], write_end),
                                      ('not open', ['sh', '-c', 'exec "$0" >&-', REPLAY], None)]:
            file.seek(0)
            if not ends(subprocess.Popen(command, stdin=file, stdout=output, stderr=subprocess.DEVNULL)):
                complaints.append(f'{name}: no end')
    os.close(write_end)
    return complaints


def input_that_fails_hangs_nothing():
    folder = os.open('.', os.O_RDONLY)
    ended = ends(subprocess.Popen([REPLAY], stdin=folder, stdout=subprocess.DEVNULL, stderr=subprocess.DEVNULL))
    os.close(folder)
    return [] if ended else ['a folder for input: no end']


def long_recordings_take_little_memory():
    """30 MB through a pipe: the second program's reply, in a few MB of memory."""
    recording, program = generated('poll', LONG), Replay(keep=False)
    wanted = expected(recording)
    program.send(recording)
    whole = program.has_replied(len(wanted))
    memory = program.highest_memory() if whole else 0
    complaints = [] if program.end() and whole else ['the reply is not whole']
    if memory > MEMORY:
        complaints.append(f'{memory} KiB, more than {MEMORY}')
    if program.digest.digest() != hashlib.sha256(wanted).digest():
        complaints.append("the reply is not the second program's")
    print(f'program: {len(recording):,} bytes in {memory:,} KiB of memory')
    return complaints


CHECKS = [short_inputs, nothing_is_held_back, replies_before_a_fault_are_written, nothing_runs_after_a_fault,
          output_that_fails_hangs_nothing, input_that_fails_hangs_nothing, long_recordings_take_little_memory]


def main():
    if not os.access(REPLAY, os.X_OK):
        sys.exit(f'program: no program {sys.argv[1]}')
    bad = 0
    for check in CHECKS:
        complaints = check()
        bad += len(complaints)
        print(f'program: {check.__name__.replace("_", " ")}: ' + ('FAILED' if complaints else 'yes'), flush=True)
        for complaint in complaints:
            print(f'  {complaint}')
    sys.exit(1 if bad else 0)


main()
