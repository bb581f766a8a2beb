#!/usr/bin/env python3
"""Lists places in crates/*/src that an older form may have left (docs/DESIGN-PASS.md): facts that stand in the
requires clauses of three functions or more, and parameters that stand together in three functions or more.

Facts and parameters are compared by the names of the parameters. The second way compares them by their types, and
reads the ensures clauses too, so that one fact about two differently named values is found.

Usage, at the top of the repository: tools/places.py facts | parameters | facts-by-type | parameters-by-type
"""
import collections
import glob
import re
import sys

LEAST = 3
FUNCTION = re.compile(r'^[ \t]*(?:pub(?:\(crate\))? )?(?:const |final )?(?:extern "C" )?fn (\w+)', re.M)
IMPL = re.compile(r'^impl\b.*?(?:for )?(\w+)(?:<[^{]*?>)?(?=[^\w{]*\{)', re.M)
CLAUSE = re.compile(r'\s*(requires|ensures)(?: \w+)? (?=\{)')
PAIRS = {'(': ')', '{': '}', '<': '>'}

Function = collections.namedtuple('Function', 'name parameters answer requires ensures owner')


def after(text, start):
    """The place behind the bracket that closes the one at start. Only its own kind counts, and an arrow closes none."""
    opens, closes = text[start], PAIRS[text[start]]
    depth, at = 1, start + 1
    while depth:
        if text[at] == closes and text[at - 1:at + 1] != '->':
            depth -= 1
        elif text[at] == opens:
            depth += 1
        at += 1
    return at


def split(text, mark):
    """The parts of a text between marks that no bracket encloses."""
    parts, depth, start = [], 0, 0
    for at, sign in enumerate(text):
        if sign in '([{':
            depth += 1
        elif sign in ')]}':
            depth -= 1
        elif depth == 0 and text.startswith(mark, at):
            parts.append(text[start:at])
            start = at + len(mark)
    return [part for part in parts + [text[start:]] if part.strip()]


def bare(fact):
    """A fact without the parentheses around all of it."""
    return bare(fact[1:-1]) if fact.startswith('(') and after(fact, 0) == len(fact) else fact


def read(text, found):
    """One function: its parameters with their types, what it answers, and the facts of its clauses."""
    at = found.end()
    if text[at] == '<':
        at = after(text, at)
    end = after(text, at)
    inside = re.sub(r"<'\w+>", '', text[at + 1:end - 1])
    parameters = [[part.strip() for part in item.split(':', 1)] for item in split(inside, ',') if ':' in item]
    head = re.compile(r'[^{;]*?(?=\s(?:requires|ensures)\b|\{|;)').match(text, end).group()
    answer = head.split('->')[1].split(' where')[0].strip() if '->' in head else '()'
    clauses = {'requires': [], 'ensures': []}
    at = end + len(head)
    clause = CLAUSE.match(text, at)
    while clause:
        at = after(text, clause.end())
        said = text[clause.end() + 1:at - 1]
        clauses[clause.group(1)] += [bare(' '.join(fact.split())) for fact in split(said, ' × ')]
        clause = CLAUSE.match(text, at)
    owners = [impl.group(1) for impl in IMPL.finditer(text[:found.start()])]
    owner = owners[-1] if owners and text[found.start()] == ' ' else ''
    return Function(found.group(1), parameters, answer, clauses['requires'], clauses['ensures'], owner)


def functions():
    for path in sorted(glob.glob('crates/*/src/*.rt')):
        with open(path, encoding='utf-8') as file:
            text = file.read()
        for found in FUNCTION.finditer(text):
            function = read(text, found)
            yield '::'.join(filter(None, [path.split('/')[1], function.owner, function.name])), function


def facts():
    """Facts of requires clauses; a record and a card are one, and so are a task and a draft."""
    for name, function in functions():
        for fact in function.requires:
            fact = re.sub(r'«record»\.|\bcard\.', 'record.', fact)
            yield re.sub(r'\bdraft\.', 'task.', fact), name


def parameters():
    for name, function in functions():
        yield from pairs(name, [parameter[0] for parameter in function.parameters])


def facts_by_type():
    """Facts of both kinds of clause, with the type of each value in the place of its name, and at no point in time."""
    for name, function in functions():
        types = {parameter[0]: parameter[1].lstrip('&').removeprefix('mut ') for parameter in function.parameters}
        types |= {'self': function.owner, 'result': function.answer, '«record»': types.get('record', 'record')}
        for fact in function.requires + function.ensures:
            fact = re.sub(r'\.(?:old|new|now|entry)\b', '', fact)
            yield re.sub(r'(?<![.\w])«?\w+»?', lambda word: types.get(word.group(), word.group()), fact), name


def parameters_by_type():
    for name, function in functions():
        kinds = [function.owner] if function.owner else []
        yield from pairs(name, kinds + [parameter[1] for parameter in function.parameters])


def pairs(name, values):
    for i, first in enumerate(values):
        for second in values[i + 1:]:
            yield f'{first}, {second}', name


def main():
    ways = [facts, parameters, facts_by_type, parameters_by_type]
    way = {way.__name__.replace('_', '-'): way for way in ways}[sys.argv[1]]
    found = collections.defaultdict(set)
    for key, name in way():
        found[key].add(name)
    rows = [(len(names), key, names) for key, names in found.items() if len(names) >= LEAST]
    for count, key, names in sorted(rows, key=lambda row: (-row[0], row[1])):
        print(f'{count}\t{key}\t{", ".join(sorted(names))}')
    print(f'{len(rows)} in all')


if __name__ == '__main__':
    main()
