#!/usr/bin/env python3
"""Lists places of src/ that today's forms of the language might make plainer, by patterns, with a count for each pattern.

    python3 tools/places.py [TREE]        all lists, for the tree at TREE (this folder where none is named)
    python3 tools/places.py [TREE] -c     the counts alone

A row is a place to look at, and no verdict: docs/DESIGN-PASS.md says what became of each."""
import itertools
import os
import re
import sys
from collections import defaultdict


def files(tree):
    for folder, _, names in sorted(os.walk(os.path.join(tree, 'crates'))):
        parts = folder.split(os.sep)
        if 'src' not in parts or 'out' in parts:
            continue
        for name in sorted(names):
            if name.endswith('.rt'):
                yield os.path.join(folder, name)


def bare(line):
    """A line with no comment."""
    return re.sub(r'//.*', '', line)


class Tree:
    def __init__(self, tree):
        self.texts = {}
        for path in files(tree):
            with open(path, encoding='utf-8') as f:
                self.texts[os.path.relpath(path, tree)] = f.read().split('\n')
        self.rows = defaultdict(list)

    def note(self, point, path, number, text):
        self.rows[point].append((path, number, ' '.join(text.split())[:110]))

    def lines(self):
        for path, text in self.texts.items():
            for number, line in enumerate(text, 1):
                yield path, number, bare(line)

    def grep(self, point, pattern):
        for path, number, line in self.lines():
            if re.search(pattern, line):
                self.note(point, path, number, line)

    def functions(self):
        """Path, line, name, parameters and clauses of each function."""
        for path, text in self.texts.items():
            whole = '\n'.join(bare(line) for line in text)
            for found in re.finditer(r'\bfn (\w+)(?:<[^{;]*?>)?\(', whole):
                start, depth, at = found.end(), 1, found.end()
                while depth and at < len(whole):
                    depth += {'(': 1, ')': -1}.get(whole[at], 0)
                    at += 1
                parameters = [' '.join(p.split()) for p in re.split(r',(?![^<(\[]*[>)\]])', whole[start:at - 1])]
                parameters = [p for p in parameters if ':' in p]
                head = re.search(r'\n\s*\{\n|\n\}|\{\s*\n\s+[a-z]|;\n', whole[at:])
                clauses = whole[at:at + head.start()] if head else ''
                yield path, whole.count('\n', 0, found.start()) + 1, found.group(1), parameters, clauses


def own_results(tree):
    for path, number, line in tree.lines():
        found = re.search(r'\benum (\w+)', line)
        if found:
            body = ' '.join(bare(x) for x in itertools.takewhile(lambda x: x.strip() != '}', tree.texts[path][number:]))
            if re.search(r'\b(Accepted|Refused|Given|Added|Found|Missing|Nothing|Failed|Done)\b', body):
                tree.note('1 an enum in the shape of Option or Result', path, number, line)
    tree.grep('1 a refusal by its number', r'Refused\((u8|\d+)|refused_\d+|Result<[^>]*, u8>')
    for path, number, name, parameters, clauses in tree.functions():
        text = '\n'.join(tree.texts[path][number - 1:number + 8])
        if '&mut' in text.split('{')[0] and re.match(r'(?s)[^{]*?\)\s*->\s*bool', text):
            tree.note('1 a bool that says whether a call was refused', path, number, name)
    tree.grep('1 a result taken apart and made anew', r'Err\((\w+)\) => Err\(\1\)|Ok\((\w+)\) => Ok\(\2\)|Some\((\w+)\) => Ok\(\3\)|None => (return )?(Err|None)\b|Err\(_\) => (Err|Ok\(None|None)|None => false')
    tree.grep('1 a number for a variable, a flag or a set of inputs', r'^\s*(pub )?(a|b|c|d|output|mask): u(8|16),|\bv: u16\b|fn \w*(numbered|variable_number|weight)\w*\(')


def loops(tree):
    for path, number, line in tree.lines():
        found = re.search(r'\bfor (\w+) in (.*?\.\..*)', line)
        if found:
            indent = len(line) - len(line.lstrip())
            body = itertools.takewhile(lambda x: not re.match(r' {%d}\}' % indent, x), tree.texts[path][number:])
            body = '\n'.join(bare(x) for x in body)
            name = found.group(1)
            if name != '_' and re.search(r'\[[^\]\n]*\b%s\b[^\]\n]*\]|\.(row|output_signal|get)\(%s\)' % (name, name), body):
                tree.note('3 a loop over numbers that indexes by them', path, number, line)
            else:
                tree.note('3 a loop over numbers for their own sake', path, number, line)
        if re.search(r'\b(while|loop)\b', line):
            tree.note('3 while or loop', path, number, line)
    tree.grep('3 a counter by hand', r'\b\w+ \+= 1;|= \w+\.(wrapping|saturating)_add\(1\)')
    for path, text in tree.texts.items():
        for number in range(1, len(text)):
            if re.search(r'return (true|false);', text[number]) and any('for ' in x for x in text[max(0, number - 3):number]):
                tree.note('3 a search that returns true or false', path, number + 1, text[number - 1])


def by_hand(tree):
    tree.grep('4 equality, order or copying by hand', r'impl.* (PartialEq|Eq|PartialOrd|Ord|Clone|Hash)\b.* for ')
    tree.grep('4 a conversion by hand', r'fn (\w*_number|numbered_\w+|weight|\w+_of_number|invert_by|outcome_of|digit_value|triple_of|pair_of|number_pair|number_triple|code)\(')
    tree.grep('4 printing by an impl of Display', r'impl.*fmt::Display for')


def together(tree):
    groups, clauses = defaultdict(set), defaultdict(set)
    for path, number, name, parameters, text in tree.functions():
        crate = path.split(os.sep)[1]
        for pair in itertools.combinations(sorted(set(parameters)), 2):
            groups[crate, pair].add((path, number, name))
        for clause in re.findall(r'(?:requires|ensures)\s*\w*\s*\{(.*?)\}\n', text + '\n', re.S):
            for part in re.split(r' × ', clause.replace('(', ' ').replace(')', ' ')):
                part = re.sub(r'\b(old|new|now)\b', 'now', ' '.join(part.split()))
                clauses[crate, part].add((path, number, name))
    for (crate, pair), places in sorted(groups.items()):
        if len(places) >= 3:
            path, number, _ = min(places)
            tree.note('5 parameters together in three functions or more', path, number, f"{pair[0]}, {pair[1]} ({len(places)})")
    for (crate, part), places in sorted(clauses.items()):
        if len(places) >= 3 and re.search(r'[≤<≡]', part) and not part.startswith('result'):
            path, number, _ = min(places)
            tree.note('5 a fact in three contracts or more', path, number, f"{part} ({len(places)})")


def buffers(tree):
    for path, text in tree.texts.items():
        for number, line in enumerate(text, 1):
            if re.search(r'\b(struct|enum) \w+', bare(line)):
                body = [bare(x) for x in itertools.takewhile(lambda x: x.strip() != '}', text[number:])]
                whole = ' '.join(body)
                if re.search(r': (\[[^\]]*; [^\]]*\]|Vec<)', whole) and re.search(r'\b(count|len|made): usize', whole):
                    tree.note('6 a buffer with a length beside', path, number, line)
                if re.search(r'\ba: .*\bb: .*\bc: .*\bd: ', whole):
                    tree.note('2 a struct of four alike, one for each variable', path, number, line)
    for path, number, name, parameters, _ in tree.functions():
        if any('[' in p for p in parameters) and any(re.match(r'(made|count|width|len): usize', p) for p in parameters):
            tree.note('6 a slice and a length as parameters', path, number, name)
    tree.grep('2 one line for each of the four variables', r'^\s*(d: .*\bd\b|.*Variable::V3.*[\(,].*(;|,)\s*$)')


def main():
    arguments = [x for x in sys.argv[1:] if not x.startswith('-')]
    tree = Tree(arguments[0] if arguments else '.')
    for look in (own_results, loops, by_hand, together, buffers):
        look(tree)
    tree.grep('7 a function type, a closure bound or a dyn', r'\bdyn\b|\bfn\(|(Fn|FnMut|FnOnce)\(')
    for point in sorted(tree.rows):
        print(f'{len(tree.rows[point]):4}  {point}')
        if '-c' not in sys.argv:
            for path, number, text in tree.rows[point]:
                print(f'        {path}:{number}: {text}')


main()
