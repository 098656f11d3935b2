#!/usr/bin/env python3
"""What the prover does not look at: that the repository's parts agree with one another.

    tests/repository.py         (at the repository's root: what can be seen before anything is proved)
    tests/repository.py LOG     (after rt ci, whose output LOG holds: all of it)

Each check gives a list of complaints; one complaint fails the run.
"""
import ast
import glob
import os
import re
import subprocess
import sys

sys.path.insert(0, 'tools')
import tidy  # noqa: E402
import tree  # noqa: E402
from tree import read  # noqa: E402

LONGEST_FUNCTION = 40  # lines
MOST_FUNCTIONS = 40  # a crate stays below
LARGEST_SHARE = 15  # one crate's lines, in 100 of all crates' lines


def crates_are_listed(_):
    """crates.txt and crates/ name the same crates."""
    there = {os.path.basename(path.rstrip('/')) for path in glob.glob('crates/*/')}
    return [f'{name} stands in one of crates.txt and crates/ only' for name in there ^ set(tree.crates())]


def functions(path):
    """(name, lines, public, has a requires) of each function of a source file, methods as Type::name."""
    lines, owner = read(path).splitlines(), ''
    for first, line in enumerate(lines):
        if re.match(r'impl (\w+)', line):
            owner = re.match(r'impl (\w+)', line).group(1) + '::'
        m = re.match(r'( *)(pub(?:\(\w+\))? )?(?:const )?(?:extern "C" )?fn (\w+)', line)
        if m:
            # its body ends at the first brace that closes at its own indent, or on its first line; a declaration, which has none, at its ;
            end = re.compile(re.escape(m.group(1)) + r'(\}|\).*;)$')
            ends = (i for i in range(first, len(lines)) if end.match(lines[i]) or i == first and line.endswith(('}', ';')))
            last = next(ends)
            required = any(re.match(r' *requires', lines[i]) for i in range(first, last))
            yield (owner if m.group(1) else '') + m.group(3), last - first + 1, bool(m.group(2)), required


def all_functions():
    for path in sorted(glob.glob('crates/*/src/*.rt')):
        for name, lines, public, required in functions(path):
            yield path.split('/')[1] + '::' + name, lines, public, required


def c_functions(path):
    """(name, lines) of each function of a C file: from the line at the margin that names it to the brace at the margin."""
    for m in re.finditer(r'^\w[\w *]*?(\w+)\([^;{}]*\) \{$.*?^\}$', read(path), re.M | re.S):
        yield m.group(1), m.group().count('\n') + 1


def lengths():
    """(name, lines) of each function: the crates', the Rust packages', the C hosts' and the scripts'."""
    for name, lines, _, _ in all_functions():
        yield name, lines
    for path in [path for package in ('second', 'differential', 'rust') for path in glob.glob(f'{package}/**/*.rs', recursive=True)]:
        for name, lines, _, _ in functions(path):
            yield f'{path}: {name}', lines
    for path in glob.glob('include/*.h') + glob.glob('hosts/**/*.[ch]', recursive=True):
        for name, lines in c_functions(path):
            yield f'{path}: {name}', lines
    for path in glob.glob('tools/**/*.py', recursive=True) + glob.glob('tests/*.py'):
        for node in ast.walk(ast.parse(read(path))):
            if isinstance(node, ast.FunctionDef):
                yield f'{path}: {node.name}', node.end_lineno - node.lineno + 1


def functions_are_short(_):
    return [f'{name} has {lines} lines' for name, lines in lengths() if LONGEST_FUNCTION < lines]


def crates_are_small(_):
    numbers = {}
    for name, *_ in all_functions():
        crate = name.split('::')[0]
        numbers[crate] = numbers.get(crate, 0) + 1
    return [f'{crate} has {number} functions' for crate, number in numbers.items() if MOST_FUNCTIONS <= number]


def no_folder_of_one_machine_is_named(_):
    """Files name places within the repository, or of every Linux. What git ignores was made here and is not looked at."""
    kept = subprocess.run(['git', 'ls-files', '-z', '--cached', '--others', '--exclude-standard'], capture_output=True, check=True).stdout
    complaints = []
    for path in filter(os.path.isfile, kept.decode().split('\0')):
        with open(path, 'rb') as f:
            complaints += [f'{path}: {name.decode()}' for name in re.findall(rb'/(?:work|root|home|opt)/\w*', f.read())]
    return complaints


def crates_check_quickly(_):
    """No crate has grown to a large share of the whole check, whose time goes by the lines of sources, definitions and proofs."""
    lines = {}
    for path in tree.sources():
        crate = path.split('/')[1]
        lines[crate] = lines.get(crate, 0) + len(read(path).splitlines())
    most = sum(lines.values()) * LARGEST_SHARE / 100
    return [f'{crate} has {n} lines of {sum(lines.values())}' for crate, n in lines.items() if most < n]


def proofs_open_with_their_argument(_):
    """Each file of a function's proof says on its first line what the argument is."""
    files = [path for path in glob.glob('crates/*/proofs/**/*.antt', recursive=True) if path.count('/') > 3]
    return [path for path in sorted(files) if not re.match(r'-- \S', read(path))]


def imports_are_used(_):
    """No file brings a name in that it does not use (tools/tidy.py takes such names out)."""
    return [f'{path}: {name}' for path in tree.sources() for name in tidy.unused_names(path)]


def all_edits():
    return sorted(glob.glob('crates/*/must-fail/*.edit'))


def edits_find_their_text(_):
    """Each text that a must-fail edit replaces stands once in its file, as the pairs before it left that."""
    complaints = []
    for edit in all_edits():
        texts, file, old = {}, None, None
        for line in read(edit).splitlines():
            word, _, text = line.partition(': ')
            if word == 'file':
                file = os.path.join(os.path.dirname(os.path.dirname(edit)), text)
                texts.setdefault(file, read(file))
            elif word == 'old':
                old = text
                complaints += [] if texts[file].count(old) == 1 else [f'{edit}: not once in {file}: {old}']
            elif word == 'new':
                texts[file] = texts[file].replace(old, text)
    return complaints


def edits_name_their_slip(_):
    """Each must-fail edit begins with a line that says what slip it is."""
    return [f'{edit} does not say what slip it is' for edit in all_edits() if not re.match(r'# \S', read(edit))]


# What rt ci says of an edit that was refused for a name that is not there or at a limit, which shows nothing of the facts.
UNFIT = ['only because a proof file names', 'only by a limit', 'that can be named', 'is not in scope', 'has no field', 'has no `']


def edits_reach_a_proof(log):
    """Each must-fail edit was tried, and refused for a fact that fails and not for a name or at a limit."""
    complaints = []
    for edit in all_edits():
        name = f'{edit.split("/")[1]}/{os.path.basename(edit)}'
        said = re.search(rf'^rt: must-fail {re.escape(name)}: (.*)$', log, re.M)
        if not said:
            complaints.append(f'{name} was not tried')
        elif not said[1].startswith('refused') or any(words in said[1] for words in UNFIT):
            complaints.append(f'{name}: {said[1][:200]}')
    return complaints


def last_column(path):
    """The names in backquotes in the last column of a file's tables."""
    cells = [row.split('|')[-2] for row in read(path).splitlines() if re.match(r'\|.*\|$', row)]
    return [name for cell in cells for name in re.findall(r'`([^`]+)`', cell)]


def promises_name_every_call(_):
    """docs/PROMISES.md has a row for each public function, and names those that ask something of their caller."""
    text = read('docs/PROMISES.md')
    rows = set(re.findall(r'^\| `([\w:]+)`', text, re.M))
    asking = set(re.findall(r'^- `([\w:]+)` asks', text, re.M))
    public = {name for name, _, public, _ in all_functions() if public}
    required = {name for name, _, public, required in all_functions() if public and required}
    complaints = [f'{name} has no row' for name in public - rows] + [f'{name} is no public function' for name in rows - public]
    return complaints + [f'{name} asks something in one of source and PROMISES.md only' for name in required ^ asking]


def slips_have_edits(_):
    """Each of the paper's slips in docs/PROMISES.md names edits that are there."""
    table = re.search(r"## The paper's slips, tried\n(.*?)\n## ", read('docs/PROMISES.md'), re.S).group(1)
    rows = [row.split('|')[-2] for row in table.splitlines() if re.match(r'\|.*\|$', row)][2:]
    edits = [re.findall(r'`(\w+)/(\w+)`', row) for row in rows]
    missing = [f'{crate}/{label}' for row in edits for crate, label in row if not os.path.exists(f'crates/{crate}/must-fail/{label}.edit')]
    return [f'{name} is no edit' for name in missing] + [f'no edit for{row}' for row, found in zip(rows, edits) if not found]


def rules_name_every_definition(_):
    """docs/RULES.md names each definition of specs/, and nothing else in its last column."""
    there = {name for path in glob.glob('crates/*/specs/*.antt') for name in tree.public_names(path)}
    named = set(last_column('docs/RULES.md'))
    return [f'{name} is in no rule' for name in there - named] + [f'{name} is no definition' for name in named - there]


def names_mean_one_thing(_):
    """No two files of specs/ define one name: a rule names its definition without its crate."""
    names = [name for path in glob.glob('crates/*/specs/*.antt') for name in set(tree.public_names(path))]
    return [f'{name} is defined twice' for name in sorted({name for name in names if 1 < names.count(name)})]


def laws_that_are_named_exist(_):
    """docs/ARCHITECTURE.md names only laws that are there, in the table of laws."""
    there = {name for path in glob.glob('crates/*/proofs/*.antt') for name in tree.public_names(path)}
    table = re.search(r'## Laws that do not mirror the code\n(.*?)\n## ', read('docs/ARCHITECTURE.md'), re.S).group(1)
    return [f'{name} is no law' for name in re.findall(r'`([^`]+)`', table) if name not in there]


def room_claims_are_theorems(_):
    """docs/ROOM.md pairs each claim with a theorem of just that type, each leak with its refutation, and names nothing that is not there."""
    text, proofs = read('docs/ROOM.md'), '\n'.join(read(path) for path in glob.glob('crates/room/proofs/*.antt') + glob.glob('crates/runs/proofs/*.antt'))
    claims = re.findall(r'^\| .* \| `(\w+)` \| `(\w+)` \|$', text, re.M)
    leaks = re.findall(r'^\| .* \| `(\w+)` \| `(\w+)` \| `(\w+)`', text, re.M)
    types = [f'pub {proof} : {claim}' for claim, proof in claims] + [f'pub {proof} : {claim} {wrong} → ⊥' for wrong, claim, proof in leaks]
    complaints = [f'{line} is no theorem' for line in types if not re.search(f'^{re.escape(line)}( step_of)?$', proofs, re.M)]
    stated = set(re.findall(r'^abbrev pub (\w+) : Rules → Type 0$', read('crates/room/specs/Claims.antt'), re.M)) | {'TwelveNumbers'}
    wrong = set(re.findall(r'^unfoldable pub (\w+) : Rules$', read('crates/room/proofs/WrongRules.antt'), re.M))
    named = set(re.findall(r'`([\w:]+)`', text))
    complaints += [f'{name} has no row' for name in stated - {claim for claim, _ in claims}] + [f'{name} is not named' for name in wrong - named]
    there = {name for path in glob.glob('crates/*/*/*.antt') for name in tree.public_names(path)} | {name for name, *_ in all_functions()} | set(tree.crates())
    return complaints + [f'{name} is not there' for name in named - there - {'_run'}]


CHECKS = [crates_are_listed, functions_are_short, crates_are_small, crates_check_quickly, no_folder_of_one_machine_is_named,
          proofs_open_with_their_argument, imports_are_used, edits_find_their_text, edits_name_their_slip, promises_name_every_call,
          slips_have_edits, rules_name_every_definition, names_mean_one_thing, laws_that_are_named_exist, room_claims_are_theorems]
CHECKS_OF_A_RUN = [edits_reach_a_proof]


def main():
    log, bad = read(sys.argv[1]) if sys.argv[1:] else None, 0
    for check in CHECKS + (CHECKS_OF_A_RUN if sys.argv[1:] else []):
        complaints = check(log)
        bad += len(complaints)
        print(f'repository: {check.__name__.replace("_", " ")}: ' + ('FAILED' if complaints else 'yes'))
        for complaint in sorted(complaints):
            print(f'  {complaint}')
    sys.exit(1 if bad else 0)


main()
