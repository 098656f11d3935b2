"""What the scripts know of the repository's tree: its files, crates and definitions."""
import glob
import re


def read(path):
    with open(path, encoding='utf8') as f:
        return f.read()


def write(path, text):
    with open(path, 'w', encoding='utf8') as f:
        f.write(text)


def crates():
    """The crates that crates.txt lists."""
    lines = (line.split('#')[0].strip() for line in read('crates.txt').splitlines())
    return [line.split(':')[0].split()[0] for line in lines if line]


def sources():
    """Every source, definition and proof file."""
    patterns = 'crates/*/src/*.rt', 'crates/*/specs/*.antt', 'crates/*/proofs/**/*.antt'
    return sorted(path for pattern in patterns for path in glob.glob(pattern, recursive=True))


def public_names(path):
    """What a file of specs/ or proofs/ declares for others."""
    return re.findall(r'^(?:abbrev |unfoldable )?pub (?:ruleset |record )?(?!mod )([^\s:={(]+)', read(path), re.M)
