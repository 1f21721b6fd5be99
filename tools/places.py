#!/usr/bin/env python3
"""Counts in src/ the places that a design pass looks at: python3 tools/places.py [-v] [COMMIT]

Without COMMIT it reads the working tree. -v prints each place. A place that is listed is one to look
at, and not yet one to change.
"""
import collections
import os
import re
import subprocess
import sys

OPTION_ARM = re.compile(r'^\s*(None|Some\(_?\w*\)|Ok\(_?\w*\)|Err\(_?\w*\)) => ')
RULES = [
    ('1 own enums', re.compile(r'^\s*(pub(\(crate\))? )?enum \w+')),
    ('1 arms of a match on an Option or a Result', OPTION_ARM),
    ('1 rows of flags or of numbers', re.compile(r'\[(bool|u8|u16|u32); \w+\]|\[(false|true|0|[0-9]+u8|None); \w+\]')),
    ('1 numbers for the cases of an enum', re.compile(r'^\s*\w+::\w+ => [0-9]+,')),
    ('3 while', re.compile(r'^\s*while ')),
    ('3 for over numbers', re.compile(r'^\s*for \w+ in [^{]*\.\.')),
    ('3 counting by hand', re.compile(r'^\s*[\w.*]+ \+= 1;|^\s*[\w.*]+ -= 1;|^\s*\w+ = \w+\.saturating_(add|sub)\(1\);')),
    ('4 conversions and comparisons as functions', re.compile(
        r'^\s*(pub(\(crate\))? )?fn (is|is_keyword|same_\w+|of|name|number|layer|numbered\w*|fault|number_or_none|to_\w+|from_\w+|action|verdict)\b')),
    ('4 a test by arms', re.compile(r'=> (true|false),?$')),
    ('6 rows of a fixed length', re.compile(r'\[[A-Z][\w:()<>]*; \w+\]|\[(bool|u8|u16|u32); \w+\]')),
    ('6 lengths and places beside a row', re.compile(r'^\s*(pub )?(at|len|length|count|linked|end|next|head): (u\w+|\[)')),
    ('7 dyn, fn pointers, boxed closures', re.compile(r'\bdyn |\bfn\(|Box<dyn')),
]
TEST_CRATES = {'limits', 'tables'}


def tree(commit):
    """The files of src/ as (crate, path, lines)."""
    if commit:
        names = subprocess.run(['git', 'ls-tree', '-r', '--name-only', commit, 'crates'], capture_output=True, text=True, check=True).stdout.split()
    else:
        names = subprocess.run(['git', 'ls-files', '-co', '--exclude-standard', 'crates'], capture_output=True, text=True, check=True).stdout.split()
    for name in sorted(set(names)):
        if '/src/' not in name or not name.endswith('.rt'):
            continue
        if commit:
            text = subprocess.run(['git', 'show', f'{commit}:{name}'], capture_output=True, text=True, check=True).stdout
        elif os.path.exists(name):
            text = open(name).read()
        else:
            continue
        yield name.split('/')[1], name, text.split('\n')


def functions(lines):
    """Each function: its name, its parameters and its clauses."""
    i = 0
    while i < len(lines):
        m = re.match(r'\s*(pub(\(crate\))? )?(extern "C" )?fn (\w+)', lines[i])
        if not m:
            i += 1
            continue
        head = lines[i]
        while '{' not in re.sub(r'\{ .*', '', head) and not head.rstrip().endswith(';') and i + 1 < len(lines) and not lines[i].strip() == '{':
            i += 1
            head += '\n' + lines[i]
            if lines[i].strip() in ('{', '}') or lines[i].strip().startswith('ghost '):
                break
        params = re.search(r'\((.*?)\)\s*(->|\n|\{|;|$)', head, re.S)
        clauses = re.findall(r'(?:requires|ensures)\s*\w*\s*\{(.*)\}', head)
        yield m.group(4), params.group(1) if params else '', clauses
        i += 1


def facts(clause):
    """The facts of a clause, with the values that they speak of left out."""
    for part in re.split(r' × ', clause.strip()):
        part = part.strip('() ')
        part = re.sub(r'\b\w+(\.\w+)*\.(old|new|now)\b', '_', part)
        part = re.sub(r'λ \w+\. ', '', part)
        yield part


def main():
    args = sys.argv[1:]
    verbose = '-v' in args
    commits = [a for a in args if a != '-v']
    commit = commits[0] if commits else None
    found = collections.defaultdict(list)
    stands = collections.defaultdict(set)
    together = collections.defaultdict(set)
    for crate, name, lines in tree(commit):
        for number, line in enumerate(lines, 1):
            for rule, pattern in RULES:
                if pattern.search(line):
                    found[rule].append(f'{name}:{number}: {line.strip()}')
        if crate in TEST_CRATES:
            continue
        for function, params, clauses in functions(lines):
            where = f'{name.split("/src/")[0].split("/")[1]}::{function}'
            for clause in clauses:
                for fact in facts(clause):
                    if 'result ≡' in fact or 'handed' in fact or 'string_bytes' in fact or fact.startswith('Wrote'):
                        continue
                    stands[(crate, fact)].add(where)
            names = sorted(p.split(':')[0].strip() for p in params.split(',') if ':' in p)
            for i, a in enumerate(names):
                for b in names[i + 1:]:
                    together[(crate, a, b)].add(where)
    for key in sorted(stands):
        if len(stands[key]) >= 3:
            found['5 a fact in three functions or more'].append(f'{key[0]}: {key[1]} ({len(stands[key])}: {", ".join(sorted(stands[key]))})')
    for key in sorted(together):
        if len(together[key]) >= 3:
            found['5 parameters together in three functions or more'].append(f'{key[0]}: {key[1]}, {key[2]} ({len(together[key])})')
    for rule in sorted({r for r, _ in RULES} | set(found)):
        print(f'{len(found[rule]):4} {rule}')
        if verbose:
            for place in found[rule]:
                print(f'       {place}')


main()
