#!/usr/bin/env python3
"""Takes names that a file brings in and does not use out of its `use` lines.

    tools/tidy.py       (at the repository's root: every source, definition and proof)
"""
import re

from tree import read, sources, write

USE = r'^((?:ghost )?use .*\.\{)(.*)(\};?)$'


def unused_names(path):
    """Imported names that stand nowhere else in the file; an operator `◌+◌` is used as `+`, and a name may have a field behind a dot."""
    lines = re.sub(r'^ *(--|//).*$', '', read(path), flags=re.M).splitlines()
    used = {word for line in lines if not re.match(r'(ghost )?use ', line) for word in re.findall(r'[^\s(),;{}]+', line)}
    used |= {word.split('.')[0] for word in used}
    names = [name.strip() for line in lines for m in re.finditer(USE, line) for name in m.group(2).split(',')]
    return [name for name in names if name not in used and not used.issuperset(part for part in name.split('◌') if part)]


def without(names, text):
    def kept(m):
        left = [name.strip() for name in m.group(2).split(',') if name.strip() not in names]
        return m.group(1) + ', '.join(left) + m.group(3) + '\n' if left else ''
    return re.sub(USE.replace('$', r'\n'), kept, text, flags=re.M)


def main():
    for path in sources():
        names = unused_names(path)
        if names:
            write(path, without(names, read(path)))
            print(f'{path}: {", ".join(names)}')


if __name__ == '__main__':
    main()
