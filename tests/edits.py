#!/usr/bin/env python3
"""Where each must-fail edit is refused, against the table tests/edits.txt.

`rt ci` and `rt must-fail` print for each edit the first thing that the prover refused. This takes it from
there, as the function and its goal, or the lemma, and the file and line. It fails where that is not what the
table says, where an edit has no line in the table, where a line has no edit, and where an edit is bad, was not
tried or not refused, or is refused for no fact. Line numbers are printed and never compared.

    python3 tests/edits.py [--said FILE]    print and compare; FILE is what rt ci or rt must-fail printed, and with
                                            none rt must-fail is run, which tries again only what has changed
    python3 tests/edits.py [--said FILE] --write [CRATE..]
                                            print the table as it is refused now, of these crates or of all; a line
                                            that is new or that has changed has a question mark before its words,
                                            until someone has read what the prover says and told which fact it is
    python3 tests/edits.py --log CRATE/EDIT print all that rt check says of a crate with this edit
"""
import os
import re
import shutil
import subprocess
import sys
import tempfile

ROOT = os.path.dirname(os.path.dirname(os.path.abspath(__file__)))
CRATES = os.path.join(ROOT, 'crates')
TABLE = 'tests/edits.txt'

# What rt prints of an edit.
TOLD = re.compile(r'^rt: must-fail ([^ ]+)\.edit: (.*)$', re.M)
REFUSED = re.compile(r'refused, as it must be(?: \((.*?)\))?: (.*)')

# What only follows from an earlier refusal, of a proof that names what is gone.
FOLLOWS = re.compile(r'`[^`]*` was not admitted |\d+ declarations? that depends? on `[^`]*`, which was rejected')

# Goals that say nothing of what a function is for: sums, casts, indexes, divisors, parts of slices, what a
# callee asks, that a loop ends. An edit that is first refused at one of these is not refused for what it is named for.
NO_FACT = re.compile(r'(overflow|nonzero)_|([a-z]+_)?bounds-|.*-requires(-|$)|.*-smaller$')

# What the prover says where a proof names something that is not there any more.
NAMELESS = re.compile(r'has no field|is not in scope|has no `')


def edits():
    """The names CRATE/EDIT of all edits."""
    names = []
    for crate in sorted(os.listdir(CRATES)):
        folder = os.path.join(CRATES, crate, 'must-fail')
        if os.path.isdir(folder):
            names += [crate + '/' + f[:-5] for f in sorted(os.listdir(folder)) if f.endswith('.edit')]
    return names


def said(file):
    """What rt printed, kept in a file or now."""
    if file:
        with open(file, encoding='utf-8', errors='replace') as it:
            return it.read()
    ran = subprocess.run(['rt', 'must-fail'], cwd=ROOT, stdout=subprocess.PIPE, text=True, errors='replace')
    return ran.stdout


def place(path):
    """The folder of a function's proof, or the file of a lemma without its ending."""
    return re.sub(r'(/(Answers|Invariants|Proof))?\.antt$', '', path)


def function_at(crate, path, number):
    """The folder of the proof of the function that has this line of a source file."""
    module = re.sub(r'(^|/)(lib|main|mod)$', '', path[len('src/'):-len('.rt')])
    within, name = '', '?'
    with open(os.path.join(CRATES, crate, path), encoding='utf-8') as source:
        lines = list(source)
    # a function begins with its attributes
    while number < len(lines) and lines[number - 1].lstrip().startswith('#['):
        number += 1
    for line in lines[:number]:
        if found := re.match(r'impl\b.*?(\w+)(<.*>)? *\{?$', line):
            within = found[1]
        elif found := re.match(r'( *)(?:pub(?:\(\w+\))? )?(?:const )?(?:unsafe )?(?:extern "C" )?fn (\w+)', line):
            name = (within + '/' if found[1] else '') + found[2]
    return '/'.join(['proofs', *[module] * bool(module), name])


def refusal(crate, words):
    """The first refusal that rt tells: where, the declaration, file and line, and what the prover said, cut by rt; or
    only why there is none."""
    refused = REFUSED.fullmatch(words)
    if refused is None:
        return words
    if refused[1]:
        return refused[1] + ': ' + refused[2]
    text = refused[2]
    # of a file: `PATH:LINE:COLUMN: error: `NAME`: WORDS`
    if found := re.match(r'(?:\./)?([^ ]+\.antt):(\d+):\d+: error: `([^`]*)`(?:: )?(.*)', text):
        if not FOLLOWS.match(found[4]):
            return place(found[1]), found[3], found[1] + ':' + found[2], found[4]
    # of a goal without an answer: `note: PATH:LINE:COLUMN: WORDS (`GOAL`)`
    if found := re.match(r'note: ([^ ]+\.rt):(\d+):\d+: (.*?[^` ]) ?\(`([^`]*)`?', text):
        return function_at(crate, found[1], int(found[2])), found[4], found[1] + ':' + found[2], found[3]
    return 'no refusal can be read from it: ' + text


def refusals(file):
    return {name: refusal(name.split('/')[0], words) for name, words in TOLD.findall(said(file))}


def title(crate, where, declaration):
    """`CRATE::F GOAL` for what was refused in a function's proof, `CRATE FILE LEMMA` for a lemma in a file of its own."""
    if where.startswith('proofs/'):
        return crate + '::' + where[len('proofs/'):].replace('/', '::') + ' ' + declaration
    return crate + ' ' + where + ' ' + declaration


def read_table():
    lines = {}
    with open(os.path.join(ROOT, TABLE), encoding='utf-8') as table:
        for line in table:
            words = line.split(None, 3)
            if words and not words[0].startswith('#'):
                lines[words[0]] = words[1], words[2], words[3].strip() if len(words) > 3 else '?'
    return lines


def write(file, crates):
    lines, found_of = read_table(), refusals(file)
    for name in edits():
        if crates and name.split('/')[0] not in crates:
            continue
        found, line = found_of.get(name, 'rt says nothing of it'), lines.get(name)
        if isinstance(found, str):
            print(name + ': ' + found, file=sys.stderr)
            if line:
                print(name, *line)
        elif line and line[:2] == found[:2]:
            print(name, *line)
        else:
            print(name, found[0], found[1], '?', line[2].lstrip('? ') if line else '', '(' + found[3] + ')')


def compare(file):
    lines, found_of = read_table(), refusals(file)
    names = edits()
    failures = []
    for name in names:
        found, line = found_of.get(name, 'rt says nothing of it'), lines.get(name)
        if isinstance(found, str):
            failures.append(name + ': ' + found)
            continue
        where, declaration, at, words = found
        told = title(name.split('/')[0], where, declaration)
        print(name + ': ' + told + ': ' + (line[2] if line else words) + ' (' + at + ')')
        if line is None:
            failures.append(name + ': it has no line in ' + TABLE)
        elif line[:2] != (where, declaration):
            failures.append(name + ': refused at ' + where + ' ' + declaration + ', and ' + TABLE + ' has ' + line[0] + ' ' + line[1] + '; the prover said: ' + words)
        elif line[2].startswith('?'):
            failures.append(name + ': its line in ' + TABLE + ' does not say which fact is refused')
        elif NO_FACT.match(declaration) or NAMELESS.search(words):
            failures.append(name + ': first refused at ' + declaration + ', which is no fact that an edit can be named for: ' + words)
    failures += [name + ': ' + TABLE + ' has a line for it, and there is no such edit' for name in lines if name not in names]
    for failure in failures:
        print('FAILED ' + failure)
    print(str(len(names)) + ' must-fail edits, ' + str(len(failures)) + ' failures')
    return 1 if failures or not names else 0


def log(name):
    """Checks a copy of the crates with the edit."""
    crate, edit = name.split('/')
    with tempfile.TemporaryDirectory(prefix='edit-') as room:
        shutil.copytree(CRATES, os.path.join(room, 'crates'), ignore=shutil.ignore_patterns('out'))
        shutil.copy(os.path.join(ROOT, 'crates.txt'), room)
        subprocess.run(['git', 'init', '-q', room], check=True)
        folder = os.path.join(room, 'crates', crate)
        with open(os.path.join(folder, 'must-fail', edit + '.edit'), encoding='utf-8') as it:
            lines = it.read().split('\n')
        path = old = ''
        for line in lines:
            key, _, text = line.partition(':')
            text = text.removeprefix(' ')
            if key == 'file':
                path = os.path.join(folder, text.strip())
            elif key == 'old':
                old = text
            elif key == 'new':
                with open(path, encoding='utf-8') as it:
                    source = it.read()
                assert source.count(old) == 1, f'{old!r} stands {source.count(old)} times in {path}'
                with open(path, 'w', encoding='utf-8') as it:
                    it.write(source.replace(old, text))
        return subprocess.run(['rt', 'check'], cwd=folder).returncode


if __name__ == '__main__':
    words = sys.argv[1:]
    if words[:1] == ['--log'] and len(words) == 2:
        sys.exit(0 if log(words[1]) == 1 else 1)
    of = None
    if words[:1] == ['--said'] and len(words) > 1:
        of, words = words[1], words[2:]
    if words[:1] == ['--write']:
        write(of, words[1:])
    elif words:
        sys.exit(__doc__)
    else:
        sys.exit(compare(of))
