#!/usr/bin/env python3
"""The programs on the pages for hosts' engineers, built and run as the pages say.

    tests/embedding_page.py     (at the repository's root, after the library is built; THINNAROM_LIBRARY names another one)

A fenced block whose first line names a file (```c main.c) is written to that file; one that says `sh run` is run there, in a folder
beside one called thinnarom; a `text` block right behind it is what that has to print. These folders stand outside the repository:
they hold links, and cargo makes a git repository there, and rt ci takes neither below its own.
"""
import os
import re
import subprocess
import sys
import tempfile

PAGES = ['README.md', 'docs/EMBEDDING.md']
CARGO = os.path.abspath('build/embedding_page')
STAND_IN = os.environ.get('THINNAROM_LIBRARY')
MADE = 'crates/thinnarom/out/libthinnarom.a'
LIBRARY = os.path.abspath(STAND_IN or MADE)


def blocks(page):
    """(language, what follows it on the fence, text) of each fenced block."""
    with open(page, encoding='utf-8') as f:
        return re.findall(r'^```(\w+) ?([^\n]*)\n(.*?)^```$', f.read(), re.M | re.S)


def make_folders(root):
    """What a reader of a page has: the repository in thinnarom, with the library built, and a folder for the host beside it."""
    for folder in ['host', os.path.join('thinnarom', os.path.dirname(MADE))]:
        os.makedirs(os.path.join(root, folder))
    for name, there in [('include', os.path.abspath('include')), ('rust', os.path.abspath('rust')), (MADE, LIBRARY)]:
        os.symlink(there, os.path.join(root, 'thinnarom', name))
    return os.path.join(root, 'host')


def run(command, folder, expected):
    """Runs a block's lines; what is wrong with that, if anything is."""
    environment = {**os.environ, 'CARGO_TARGET_DIR': CARGO, **({'THINNAROM_LIBRARY': LIBRARY} if STAND_IN else {})}
    done = subprocess.run(['sh', '-e', '-c', command], cwd=folder, env=environment, capture_output=True, text=True)
    if done.returncode != 0 or done.stdout != expected:
        return [f'{command}exit {done.returncode}, printed:\n{done.stdout}{done.stderr}expected:\n{expected}']
    return []


def check(page, root):
    """(how many programs were run, complaints)."""
    folder, found, programs, complaints = make_folders(root), blocks(page), 0, []
    for number, (language, rest, text) in enumerate(found):
        if (language, rest) == ('sh', 'run'):
            behind = found[number + 1] if number + 1 < len(found) else ('', '', '')
            complaints += run(text, folder, behind[2]) if behind[0] == 'text' else [f'{text}: the page does not say what it prints']
            programs += 1
        elif rest:
            path = os.path.join(folder, rest)
            os.makedirs(os.path.dirname(path), exist_ok=True)
            with open(path, 'w', encoding='utf-8') as f:
                f.write(text)
    return programs, complaints


def main():
    bad, total = 0, 0
    for page in PAGES:
        with tempfile.TemporaryDirectory() as root:
            programs, complaints = check(page, root)
        complaints += [] if programs >= 2 else ['fewer than two programs']
        print(''.join(f'{page}: {complaint}\n' for complaint in complaints), end='')
        bad, total = bad + len(complaints), total + programs
    print(f'{total} programs of {" and ".join(PAGES)} run as the pages say' if not bad else f'{bad} FAILED')
    sys.exit(1 if bad else 0)


main()
