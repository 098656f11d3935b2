#!/usr/bin/env python3
"""Lists the places of src/ that are written in an older form, by the points of docs/DESIGN-PASS.md.

    tools/forms.py            (at the repository's root: the sources as they stand)
    tools/forms.py COMMIT     (the sources of a commit)
    tools/forms.py -v [COMMIT] names each place

Which places of a list stay, and why, is written beside them and in docs/DESIGN-PASS.md; a list may also hold places that only look like the form.
"""
import collections
import re
import subprocess
import sys


def git(*words):
    return subprocess.run(['git', *words], check=True, capture_output=True, encoding='utf8').stdout


def sources(commit):
    """Each source file's path and text, comments taken out."""
    paths = git('ls-tree', '-r', '--name-only', commit or 'HEAD', 'crates').splitlines() if commit else git('ls-files', 'crates').splitlines()
    for path in paths:
        if re.fullmatch(r'crates/\w+/src/.*\.rt', path):
            text = git('show', f'{commit}:{path}') if commit else open(path, encoding='utf8').read()
            yield path, re.sub(r'//.*', '', text)


def items(word, text):
    """Each struct or enum with its body."""
    return re.findall(r'^(?:pub )?' + word + r' (\w+)[^{;]*\{\n(.*?)^\}', text, re.M | re.S)


def functions(text):
    """Name, clauses with parameters, and body of each function."""
    for m in re.finditer(r'^( *)(?:pub )?(?:extern "C" )?fn (\w+)(.*?)^\1\{\n(.*?)^\1\}|^( *)fn (\w+)([^\n]*) \{\n(.*?)^\5\}', text, re.M | re.S):
        yield (m.group(2), m.group(3), m.group(4)) if m.group(2) else (m.group(6), m.group(7), m.group(8))


def option_enums(path, text):
    """1. Enums of which one case has values and the others have none: an Option or a Result."""
    for name, body in items('enum', text):
        cases = re.findall(r'^    \w+.*,$', body, re.M)
        if sum('(' in case for case in cases) == 1 < len(cases):
            yield name


def flags(path, text):
    """1. A flag, or an answer's number, as a field beside values."""
    for name, body in items('struct', text):
        fields = dict(re.findall(r'(\w+): ([^,]+),', body))
        for field, kind in fields.items():
            if len(fields) > 1 and (field in ('number', 'answer') or field in ('on', 'whole') and kind == 'bool'):
                yield f'{name}.{field}'


def number_tests(path, text):
    """1. An answer told apart by its number."""
    return re.findall(r'\w+\.(?:number\(\)|number|answer) [!=]= \d', text)


def twins(path, text):
    """2. Functions of one crate that differ only in names, types and numbers: all but the first of each shape, the exports for C left out."""
    shapes = collections.defaultdict(list)
    for name, _, body in functions(text):
        shapes[re.sub(r'\s+', ' ', re.sub(r'\b(?!if|else|match|let|mut|return|while|for|in)\w+\b', 'x', body))].append(name)
    for names in shapes.values():
        yield from names[1:] if 'thinnarom' not in path else ()


def type_twins(path, text, known=[]):  # known: the structs of the files before
    """2. Structs, of any two crates, that differ in one field of three or more: all but the first."""
    for name, body in items('struct', text):
        fields = set(re.findall(r'^    (?:pub )?(\w+): ([^,]+),$', body, re.M))
        if len(fields) > 2 and any(len(fields) == len(other) and len(fields - other) < 2 for other in known):
            yield name
        known.append(fields)


def index_loops(path, text):
    """3. Loops that count by hand."""
    return re.findall(r'while [^{]+', text)


def listed_cases(path, text):
    """4. Functions that list every case of an enum to say which one it is."""
    for name, _, body in functions(text):
        arms = re.findall(r'^ *(?:\w+::)\w+(?:\([^)]*\))? => ([^{}\n]*),$', body, re.M)
        if len(arms) > 2 and max(collections.Counter(arms).values()) > 1:
            yield name


def copied_fields(path, text):
    """4. A field copied to a name of its own that is used once."""
    for _, _, body in functions(text):
        for m in re.finditer(r'let (\w+) = ([\w.]+)\.\1;', body):
            if len(re.findall(r'(?<![\w.])' + m.group(1) + r'\b(?!:)', body[m.end():])) == 1:
                yield f'{m.group(1)} = {m.group(2)}.{m.group(1)}'


def changed_copies(path, text):
    """4. A value taken as `mut` to have one field changed and be handed back."""
    for name, head, body in functions(text):
        if re.search(r'\(mut \w+', head) and re.fullmatch(r' *(\w+)\.\w+ = [^\n]+;\n *\1\n', body):
            yield name


def bytes_by_hand(path, text):
    """4. Numbers made of bytes, or bytes of numbers, by hand."""
    return re.findall(r'(?:\b256 \* [(\w][^\n;]*|% 256\) as u8|/ 256\) as u8)', text)


def ladders(path, text):
    """4. A test within a test whose other ways all end the same."""
    return re.findall(r'return (?:false|[\w:]*Faults|[\w:]*Beyond|[\w:]*Slow|refuse_setup\([^)]*\));\n *\}\n *(?:return )?(?:false|[\w:]*Faults|[\w:]*Beyond|[\w:]*Slow|refuse_setup)', text)


def state_lengths(path, text):
    """5. The clause that the state has 163 bytes."""
    return re.findall(r'length state\.(?:now|old) ≡ 163', text)


def parted_fronts(path, text):
    """5. Functions that take a hot and a settled part beside one another."""
    return [name for name, head, _ in functions(text) if re.search(r'hot: Hot', head) and re.search(r'settled: Settled', head)]


def parted_devices(path, text):
    """5. Functions that take a face and the passwords beside one another."""
    return [name for name, head, _ in functions(text) if re.search(r'face: Face', head) and re.search(r'secrets: Secrets', head)]


def parted_blocks(path, text):
    """5. Functions that take security settings, passwords and a password block beside one another."""
    return [name for name, head, _ in functions(text) if re.search(r'security: Security', head) and re.search(r'secrets: Secrets', head)]


def lent_pairs(path, text):
    """5. Functions that take a lent state and a lent buffer beside one another, the exports for C left out."""
    return [name for name, head, _ in functions(text) if re.search(r'state: &mut', head) and re.search(r'buffer: &mut', head) and 'thinnarom' not in path]


def memories(path, text):
    """5. The clause that the memory is the disk's."""
    return re.findall(r'requires \{ \(?Memory .*', text)


def lengths_beside(path, text):
    """6. A buffer with a length, or a place, beside it as a parameter."""
    return [name for name, head, _ in functions(text) if re.search(r'\[u8\]', head) and re.search(r'\b(held|put|at|size|from|place): usize', head)]


def steps(path, text):
    """7. Tables of functions, and numbers that pick a step."""
    return re.findall(r'\bfn\(|step: u8|kind: u8\)', text)


LISTS = option_enums, flags, number_tests, twins, type_twins, index_loops, listed_cases, copied_fields, changed_copies, bytes_by_hand, ladders, state_lengths, parted_fronts, parted_devices, parted_blocks, lent_pairs, memories, lengths_beside, steps


def main():
    words = sys.argv[1:]
    naming = '-v' in words
    commit = next((word for word in words if word != '-v'), None)
    files = list(sources(commit))
    for find in LISTS:
        places = [(path.split('/')[1], place) for path, text in files for place in find(path, text)]
        print(f'{len(places):4} {find.__name__}: {find.__doc__}')
        for crate, place in places if naming else []:
            print(f'         {crate}: {" ".join(str(place).split())}')


main()
