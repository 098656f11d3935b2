"""Replies as a program gives them. A program is named by its path, also one without a slash."""
import os
import subprocess
import tempfile

PATIENCE = 60  # seconds


def run_whole(program, recording):
    done = subprocess.run([os.path.abspath(program)], input=recording, stdout=subprocess.PIPE, timeout=PATIENCE, check=False)
    return done.stdout, done.returncode


def wait_or_kill(child):
    try:
        return child.wait(timeout=PATIENCE)
    except subprocess.TimeoutExpired:
        child.kill()
        raise


def run_in_pieces(program, recording):
    """Writes byte by byte, so that a program which takes one read for the whole input shows it."""
    with tempfile.TemporaryFile() as out:
        with subprocess.Popen([os.path.abspath(program)], stdin=subprocess.PIPE, stdout=out, bufsize=0) as child:
            try:
                for place in range(len(recording)):
                    os.write(child.stdin.fileno(), recording[place:place + 1])
                child.stdin.close()
            except BrokenPipeError:
                pass  # a program may stop reading at the first fault
            code = wait_or_kill(child)
        out.seek(0)
        return out.read(), code
