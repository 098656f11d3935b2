#!/usr/bin/env python3
"""Spells the repository's own definitions and lemmas as the library spells its own: words in snake case.

    tools/respell.py       (once, at the repository's root, after the kit's port.py: rewrites crates, docs and README in place)

A definition `capacityOf` becomes `capacity_of`, a lemma `picked-true` becomes `picked_true`; types, facts and modules keep their
capitals. Where a lemma and a definition would fall together, the lemma gets the ending `_law`. Functions, fields of structs and exported
names are not touched: they are in snake case as they stand.
"""
import collections
import glob
import re

from tree import read, write

# Lemmas that would get a definition's name.
APART = '''after-payment five-wrong glance-buffer identify-word judged-face max-capacity password-word quick-step read-up-to
started-face taken-behind turned-away with-transfer word-refused words-from words-in written-up-to'''.split()
# Lemmas that the kit's script gave a name in snake case which a definition gets now, by their files.
TURNED = {
    'last_step': ['crates/words/proofs/BulkReads.antt', 'crates/words/proofs/BulkWrites.antt'],
    'run_fits': ['crates/laws/proofs/Shape.antt'],
    'shaped_of': ['crates/laws/proofs/Reached.antt'],
    'takes_none': ['crates/words/proofs/WriteLoop.antt'],
}
# Names that the kit's script respelled in sources and proofs, and not in edits, recipes and pages.
BY_THE_KIT = '''add-at add-left add-words address-below address-spec addressOf afterOf alike-at all-three as-one at-five behind-more below-each block-none blockOf
both-true capacity-spec copied-more copied-none copy-more copy-spec counted-spec cut-spec digits-same either-way endedAs enum-told fill-spec
filled-more filled-none finish-spec first-word freshOf from-last front-length gives-whole headOf held-spec held-stays hereOf high-byte highWord isOver
keep-spec keeping-none kept-byte last-step last-stored last-taken last-turn last-word lengthOf lentOf lineOf load-spec look-spec low-byte lowWord
mul-at mul-low new-spec nextOf no-kind no-run no-value no-words none-below numberOf of-length of-parts one-word only-one onward-then open-free
openedOf others-keep over-nothing part-bytes partOf parts-same passed-then past-end placeOf placedAt put-all put-alone put-front put-last put-other
put-same putAll read-answer read-done read-kept read-last-spec read-none read-one read-step reads-first reads-none reads-same rest-back run-fits
run-spec runAt runOf same-false same-length same-refl same-spec same-step same-true seen-done seen-more seen-none set-spec shaped-of shut-none
start-spec startOf stateOf step-keeps step-spec step-then stepOf store-kept store-length store-same store-spec stored-other stored-same storedAt
sub-number takenOf takes-first takes-none turn-spec turnOf two-sized unlock-spec valueOf valuesOf wantAt way-as wholeOf withHead withRegs within-low
word-bytes word-in word-of word-on word-read wordAt wordIn words-append words-more wordsIn wordsOf write-done writes-more'''.split()
WORD = r"[^\s(){}\[\];,.:`'\"|<>/=]+(?:'+(?=[\s).;,}]))?"


def snake(name):
    name = re.sub(r'([a-z0-9])([A-Z])', r'\1_\2', name.replace('-', '_'))
    return re.sub(r'([A-Z])([A-Z][a-z])', r'\1_\2', name).lower()


def declared(path):
    """Names that a file of definitions or lemmas declares, at its top, in records, and below `where` and `let`."""
    for line in read(path).split('\n'):
        if line.startswith(('use ', '--')):
            continue
        m = re.match(r'\s*(?:(?:abbrev|unfoldable|pub|ruleset) )*([^\s(){}:;,=]+)(?: \{[^}]*\})?(?: \([^)]*\))* (?::|=) ', line + ' ')
        if m:
            yield m[1]
        yield from re.findall(r'let ([^\s(){}:;,=.]+) (?::|=)', line)


def renamings():
    own = set()
    for path in sorted(glob.glob('crates/*/specs/*.antt') + glob.glob('crates/*/proofs/*.antt')):
        own.update(declared(path))
    old = {name for name in own if re.fullmatch(r"[a-z][\w'-]*-[\w'≢-]+|[a-z]\w*[A-Z]\w*'*", name)}
    new = {name: snake(name) + ('_law' if name in APART else '') for name in sorted(old)}
    met = collections.defaultdict(list)
    for name in own:
        met[new.get(name, name)].append(name)
    for name, names in sorted(met.items()):
        if len(names) > 1 and name not in TURNED:
            raise SystemExit(f'respell.py: {names} fall together')
    return new


def respell(path, new):
    write(path, re.sub(WORD, lambda m: new.get(m.group(0), m.group(0)), read(path)))


def respell_page(path, new):
    """In a page a name with a hyphen may be plain English: there names in code marks, laws by name and camel case."""
    text = re.sub(r'`[^`\n]+`|\blaw \S+', lambda m: re.sub(WORD, lambda w: new.get(w.group(0), w.group(0)), m.group(0)), read(path))
    write(path, re.sub(WORD, lambda m: m.group(0) if '-' in m.group(0) else new.get(m.group(0), m.group(0)), text))


def main():
    new = renamings()
    if not new:
        raise SystemExit('respell.py: every name has that spelling')
    for name, paths in TURNED.items():
        for path in paths:
            write(path, re.sub(rf'(?<![\w-]){name}(?![\w-])', name + '_law', read(path)))
    turned = {name: snake(name) + ('_law' if snake(name) in TURNED else '') for name in BY_THE_KIT}
    for pattern in ('crates/*/must-fail/*.edit', 'crates/*/proofs/recipes.txt'):
        for path in sorted(glob.glob(pattern)):
            respell(path, turned)
    for pattern in ('crates/*/src/*.rt', 'crates/**/*.antt', 'crates/*/must-fail/*.edit', 'crates/*/proofs/recipes.txt'):
        for path in sorted(glob.glob(pattern, recursive=True)):
            respell(path, new)
    for path in sorted(glob.glob('docs/*.md') + ['README.md', 'recordings/README.md']):
        respell_page(path, turned | new)
    for name in sorted(new):
        print(name, new[name])


main()
