"""The repository as the scripts beside this file see it: crates.txt, a crate's files and edits, and a copy of the crates to try things in."""
import os
import shutil
import subprocess

ROOT = os.path.dirname(os.path.dirname(os.path.abspath(__file__)))
PARTS = ('src', 'specs', 'proofs')


def dependencies():
    """crates.txt: each crate with the crates that its line names, in the order of the file."""
    named = {}
    with open(os.path.join(ROOT, 'crates.txt'), encoding='utf-8') as lines:
        for line in lines:
            name, colon, listed = line.split('#')[0].partition(':')
            if colon:
                named[name.split()[0]] = listed.split()
    return named


def crate(name, *below):
    return os.path.join(ROOT, 'crates', name, *below)


def target(*below):
    return os.path.join(ROOT, 'target', *below)


def edits(name, folder):
    """The edits of a crate in its folder must-fail or wrong, by name."""
    at = crate(name, folder)
    return sorted(os.path.join(at, f) for f in os.listdir(at) if f.endswith('.edit')) if os.path.isdir(at) else []


def files(name):
    """Every file of a crate that is proved."""
    for part in PARTS:
        for folder, _, names in os.walk(crate(name, part)):
            for f in names:
                yield os.path.join(folder, f)


def copied(at):
    """A copy of the crates, with nothing that a check made. `rt` takes from this machine what checks of the same files kept."""
    shutil.rmtree(at, ignore_errors=True)
    shutil.copytree(crate(''), os.path.join(at, 'crates'), ignore=lambda folder, names: [n for n in names if n == 'out' and os.path.isdir(os.path.join(folder, 'src'))])
    for name in ('crates.txt', 'HANDLES'):
        if os.path.isfile(os.path.join(ROOT, name)):
            shutil.copy(os.path.join(ROOT, name), at)
    subprocess.run(['git', 'init', '-q', at], check=True)  # so that `rt` looks no further up
    return at


def said(words, at, log):
    """Runs a command in a folder with its output in a file: its status and what it said."""
    os.makedirs(os.path.dirname(log), exist_ok=True)
    with open(log, 'w', encoding='utf-8') as out:
        status = subprocess.run(words, stdout=out, stderr=subprocess.STDOUT, cwd=at).returncode
    with open(log, encoding='utf-8', errors='replace') as out:
        return status, out.read()
