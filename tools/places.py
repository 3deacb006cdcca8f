#!/usr/bin/env python3
# Counts the places in src/ that docs/DESIGN-PASS.md speaks of: python3 tools/places.py [-l] [ROOT]. With -l each place is printed too.
import collections
import glob
import os
import re
import sys

listed = '-l' in sys.argv[1:]
roots = [a for a in sys.argv[1:] if a != '-l']
root = roots[0] if roots else '.'

files = sorted(f for f in glob.glob(os.path.join(root, 'crates/*/src/**/*.rt'), recursive=True))
lines = []
for f in files:
    with open(f) as opened:
        for n, line in enumerate(opened.read().split('\n'), 1):
            code = '' if line.lstrip().startswith('//') else line.split(' // ')[0]
            lines.append((os.path.relpath(f, os.path.join(root, 'crates')), n, code))


def show(point, what, found):
    print(f'{point}\t{len(found)}\t{what}')
    if listed:
        for where in found:
            print(f'\t\t{where}')


def grep(point, what, pattern, without=None):
    found = [f'{f}:{n}: {c.strip()[:110]}' for f, n, c in lines if re.search(pattern, c) and not (without and re.search(without, c))]
    show(point, what, found)


def functions():
    for f in files:
        with open(f) as opened:
            text = opened.read()
        name = os.path.relpath(f, os.path.join(root, 'crates'))
        for m in re.finditer(r'^(?P<in> *)(pub )?(extern "C" )?fn (?P<name>\w+)(?P<head>.*?)\n(?P=in)\{\n(?P<body>.*?)\n(?P=in)\}', text, re.M | re.S):
            yield name, m.group('name'), m.group('head'), m.group('body')
        for m in re.finditer(r'^(?P<in> *)(pub )?(extern "C" )?fn (?P<name>\w+)(?P<head>[^\n]*?) \{\n(?P<body>.*?)\n(?P=in)\}', text, re.M | re.S):
            yield name, m.group('name'), m.group('head'), m.group('body')


every = list(functions())

# 1: enums of the shape of Option, numbers for kinds and refusals, flags with a value beside them
grep('1a', 'own enums of the shape of Option or Result', r'^\s*(pub )?enum (Found|Spot)\b')
grep('1b', 'constants that number kinds', r'^\s*(pub )?const [A-Z0-9_]+: (u8|u16|i32) =')
grep('1c', 'fields that hold a kind or a reason as a number', r'^\s*(pub )?(number|answer|pending|reading|sign|action|files|kind): u(8|16),?$')
grep('1d', 'functions that answer a kind or a reason as a number', r'^\s*(pub )?fn (refuse\w*|word_at|edit_of|settle|admit|ask|one_more|next_reading)\(.*-> u(8|16)')
grep('1e', 'reasons for a refusal, written as a number', r'(return|leave\(|read_none\(|refuse\(t,|number:|\{) ?(1[0-3]|[1-9])\b[;,) ]', r'number: (u8|u64)|b\'|width|=> \{')
grep('1f', 'fields that are a flag with a value beside it', r'^\s*(pub )?(is_\w+|some|changed): bool,$')

# 2: twins
grep('2a', 'functions for one of two sizes', r'^\s*(pub )?(extern "C" )?fn \w+_(48|96)\b')
shapes = collections.defaultdict(list)
for f, name, head, body in every:
    if len(body.split('\n')) < 3:
        continue
    shape = re.sub(r'\b\d+\b', '#', body)
    shape = re.sub(r'\b\w+::\w+\b|\b\w+(?=\()', 'f', shape)
    shapes[shape].append(f'{f}: {name}')
same = [' = '.join(v) for v in shapes.values() if len(v) > 1]
show('2b', 'groups of functions whose bodies differ in numbers and callees alone (bodies of 3 lines and more)', same)

# 3: loops
grep('3a', 'loops by while and loop', r'\b(while\b.*\{|loop \{)')
grep('3b', 'loops by for over numbers', r'\bfor \w+ in .*\.\.')

# 4: by hand
grep('4a', 'calls of an own smaller-of-two', r'\b(cells::)?least\(')
grep('4b', 'numbers put together field by field, all 0', r'\bsign: 0,$')
grep('4c', 'calls that print text, numbers and words one by one', r'\bprinting::(text|number|named|either|hex)\(')
grep('4d', 'casts', r'\bas (u8|u16|u32|u64|usize|i64)\b')

# 5: facts in three contracts and more; parameters that travel together
facts = collections.Counter()
for f, name, head, body in every:
    for clause in re.findall(r'requires[^{]*\{(.*)\}', head):
        for fact in re.split(r' × ', clause.strip()):
            facts[fact.strip(' ()')] += 1
show('5a', 'facts that stand in the requires of three functions and more', [f'{n} {fact}' for fact, n in facts.most_common() if n >= 3])
show('5b', 'functions that take what is printed and its page', [f'{f}: {n}' for f, n, h, b in every if re.search(r'\bout: Output', h) and re.search(r'page: &', h)])
show('5c', 'functions that take both memories', [f'{f}: {n}' for f, n, h, b in every if re.search(r'\bchars: &', h) and re.search(r'attrs: &', h)])
show('5d', 'functions that take a buffer and a place in it', [f'{f}: {n}' for f, n, h, b in every if re.search(r'\b(reply|lines|bytes|part|s|text): &', h) and re.search(r'\b(at|from|n): usize', h)])
grep('5e', 'labels of clauses that say nothing', r'\b(fact_\d|\w+_after_2)\b')

# 6: buffers with a length beside
grep('6a', 'fixed buffers', r'\[(\w+;|\d+u8;) ?\w+\]')

# 7: switches
grep('7a', 'flags handed on that say which step to run', r'\b(is_plain|is_raw|is_changes|is_host|is_session|of_enhancements): bool')
grep('7b', 'matches on numbers', r'^\s*(\d+|_? ?\d+ \| \d+) => ')
