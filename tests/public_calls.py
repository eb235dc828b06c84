#!/usr/bin/env python3
"""Holds the list of public calls in docs/PROOFS.md to the code: each call named there is a public function, has no `requires`, and has an `ensures` that
names every buffer that it may write, as it is at exit; and every function exported for C by the crates of the archives is on the list.

It also holds the edits that the document names to those that there are: each named edit exists, and each edit of a crate is named.

Run from the repository's root. Prints one line; exits with 1 where something does not hold."""
import glob
import os
import re
import sys

ARCHIVES = ('wave_checker', 'wave_signer')
NOT_OF_THE_PRODUCT = ('bench', 'bench_check')


def heads(path):
    """Each public function of a file: its name, and its text up to its body."""
    text = open(path, encoding='utf-8').read()
    for found in re.finditer(r'^(#\[unsafe\(no_mangle\)\]\n)?pub (?:extern "C" )?fn (\w+)', text, re.M):
        body = re.search(r'\n\{\n', text[found.end():])
        yield found.group(2), bool(found.group(1)), text[found.start():found.end() + body.start()]


def faults_of(head):
    """What a public call may not have, or lacks."""
    if re.search(r'^\s*requires\b', head, re.M):
        yield 'has a requires'
    clauses = head[head.find('ensures'):] if 'ensures' in head else ''
    if not clauses:
        yield 'has no ensures'
    for name in re.findall(r'\b(\w+): &(?:\'\w+ )?mut ', head):
        if not re.search(r'(?<![\w.])«?%s»?\.new\b' % name, clauses):
            yield 'does not say what %s is at exit' % name


def calls(document):
    """The calls of the list: crate, path within it."""
    part = document.split('## The public calls\n')[1].split('\n## ')[0]
    return re.findall(r'^- `([a-z_]+)::([a-z0-9_:]+)`', part, re.M)


def test_calls(document):
    listed = calls(document)
    for crate, path in listed:
        *modules, name = path.split('::')
        file = 'crates/%s/src/%s.rt' % (crate, '/'.join(modules) or 'lib')
        found = [head for f, _, head in heads(file) if f == name] if os.path.exists(file) else []
        if not found:
            yield '%s::%s is no public function' % (crate, path)
        for head in found:
            for fault in faults_of(head):
                yield '%s::%s %s' % (crate, path, fault)
    for crate in ARCHIVES:
        for file in glob.glob('crates/%s/src/**/*.rt' % crate, recursive=True):
            for name, exported, _ in heads(file):
                if exported and (crate, name) not in listed:
                    yield '%s::%s is exported and not on the list' % (crate, name)


def test_edits(document):
    named = {e for e in re.findall(r"`([a-z_]+/[a-z0-9_]+)`", document) if e.split("/")[1] not in ("src", "specs", "proofs")}
    there = set()
    for file in glob.glob('crates/*/must-fail/*.edit'):
        _, crate, _, label = file.split('/')
        there.add('%s/%s' % (crate, label[:-len('.edit')]))
        for line in open(file, encoding='utf-8'):
            if line.startswith('file: ') and not line.startswith(('file: src/', 'file: specs/')):
                yield '%s edits what is neither src/ nor specs/' % file
    for edit in sorted(there - named):
        if edit.split('/')[0] not in NOT_OF_THE_PRODUCT:
            yield 'the edit %s is not in docs/PROOFS.md' % edit
    crates = {os.path.basename(d) for d in glob.glob('crates/*')}
    for edit in sorted(named - there):
        if edit.split('/')[0] in crates:
            yield 'docs/PROOFS.md names an edit %s that is not there' % edit


def main():
    document = open('docs/PROOFS.md', encoding='utf-8').read()
    faults = list(test_calls(document)) + list(test_edits(document))
    for fault in faults:
        print('public calls: ' + fault)
    if faults:
        sys.exit(1)
    print('public calls: %d, none with a requires, each with every buffer at exit' % len(calls(document)))


main()
