#!/usr/bin/env python3
"""Counts the places of older forms in src/ and the answers in proofs/: tools/places.py [--list] [TREE]

A place is what a pattern finds, not what is wrong with it: docs/DESIGN-PASS.md says of each what became of it.
"""
import collections
import pathlib
import re
import sys

KEYWORDS = set('as bool break const continue else enum false fn for if impl in let loop match mod mut pub ref return self Self static struct '
               'super trait true type u8 u16 u32 u64 usize use where while'.split())


def sources(tree):
    """Each source with its text up to its tests, comments and strings left in."""
    for path in sorted(pathlib.Path(tree).glob('crates/*/src/*.rt')):
        yield path.relative_to(tree).as_posix().removeprefix('crates/').replace('/src/', '/'), path.read_text().split('#[cfg(test)]')[0]


def block_at(text, at):
    """From the brace at `at` on up to the one that closes it."""
    depth = 0
    for place in range(at, len(text)):
        depth += {'{': 1, '}': -1}.get(text[place], 0)
        if depth == 0:
            return text[at + 1:place]
    return text[at + 1:]


def without_comments(text):
    return re.sub(r'//[^\n]*', '', text)


def functions(text):
    """Name, parameters, clauses and body of each function."""
    text = without_comments(text)
    for found in re.finditer(r'\bfn (\w+)(?:<[^(]*>)?\(', text):
        depth, place = 1, found.end()
        while depth:
            depth += {'(': 1, ')': -1}.get(text[place], 0)
            place += 1
        brace = re.compile(r'^(?:    )?\{|;\n|^    \}|\) \{| \{\n', re.M).search(text, place)
        if not brace or brace.group().startswith(';'):
            continue
        start = text.index('{', brace.start())
        yield found.group(1), text[found.end():place - 1], text[place:start], block_at(text, start)


def types(text, kind):
    text = without_comments(text)
    for found in re.finditer(r'\b%s (\w+)(?:<[^{;(]*>)? \{' % kind, text):
        yield found.group(1), block_at(text, found.end() - 1)


def two_way_enums(name, text):
    for type_name, body in types(text, 'enum'):
        variants = re.findall(r'^    (\w+)( \{|\()?', body, re.M)
        if len(variants) == 2 and any(data for _, data in variants):
            yield '%s %s' % (name, type_name)


def flags(name, text):
    for type_name, body in types(text, 'struct'):
        fields = re.findall(r'(\w+): ([^,\n]+),', body)
        if any(kind == 'bool' and re.match('is_|has_|may_|holds', field) for field, kind in fields):
            yield '%s %s: %s' % (name, type_name, ', '.join(field for field, kind in fields if kind == 'bool'))
    for number, line in enumerate(text.split('\n'), 1):
        if re.search(r'\b0 if there (is|are) no', line):
            yield '%s:%d %s' % (name, number, line.strip())


def codes(name, text):
    for found in re.finditer(r'^(?:pub )?const (\w+): u(?:8|16|32) = (\w+);', text, re.M):
        yield '%s %s = %s' % (name, found.group(1), found.group(2))
    for function, parameters, _, _ in functions(text):
        for parameter in re.findall(r'\b(letter|register|mode|kind|x): u\d+', parameters):
            yield '%s %s(%s)' % (name, function, parameter)


def shape(function, parameters, clauses, body):
    """The function without its names, types and constants; the names that it calls stay."""
    names, out = {}, []
    result = clauses.split('\n')[0]
    for token in re.findall(r"b?\"[^\"]*\"|b?'[^']*'|\w+|[^\s\w]", parameters + result + '{' + body):
        if token in KEYWORDS and token not in ('u8', 'u16', 'u32', 'u64', 'usize', 'bool', 'true', 'false'):
            out.append(token)
        elif re.match(r'\d|b?["\']', token) or token in ('true', 'false'):
            out.append('L')
        elif token == function:
            out.append('F')
        elif re.match(r'\w', token):
            out.append('I' if token in names or True else token)
        else:
            out.append(token)
    return ' '.join(out)


def twins(tree):
    groups = collections.defaultdict(list)
    for name, text in sources(tree):
        for function, parameters, clauses, body in functions(text):
            key = shape(function, parameters, clauses, body)
            if len(key.split()) >= 24:
                groups[key].append('%s %s' % (name, function))
    for members in groups.values():
        if len(members) > 1:
            yield '; '.join(members)


def loops(name, text):
    for number, line in enumerate(text.split('\n'), 1):
        if re.match(r'\s*while ', line):
            yield '%s:%d %s' % (name, number, line.strip())


def underived(name, text):
    for found in re.finditer(r'#\[derive\(([^)]*)\)\]\n(?:pub )?(?:struct|enum) (\w+)', text):
        if 'PartialEq' not in found.group(1) or 'Debug' not in found.group(1):
            yield '%s %s' % (name, found.group(2))


def conversions(name, text):
    for number, line in enumerate(text.split('\n'), 1):
        if re.search(r'% (256|65536|4294967296)\b|/ 256\b|256 \*|65536 \*|\* (256|65536)\b|choose_bool\(.*!|b - (48|55|87)|48 \+|55 \+', line):
            yield '%s:%d %s' % (name, number, line.strip())


def by_hand(name, text):
    wanted = r'(is|same|least|ended|number|number_of|value_of|byte|word|low|high|with_\w+|choose\w*|machines|chargers|bays|requests|setups)$'
    for function, parameters, _, _ in functions(text):
        if re.match(wanted, function):
            yield '%s %s' % (name, function)


def travelling(tree):
    """Pairs of parameters, by name and type, that stand in three functions or more."""
    pairs = collections.defaultdict(set)
    for name, text in sources(tree):
        for function, parameters, _, _ in functions(text):
            found = re.findall(r'(\w+): (&mut \[u8\]|&\[u8\]|[\w<>:]+)', re.sub(r'\s+', ' ', parameters))
            for i, first in enumerate(found):
                for second in found[i + 1:]:
                    pairs[first, second].add('%s %s' % (name, function))
    for ((a, s), (b, t)), members in sorted(pairs.items(), key=lambda pair: -len(pair[1])):
        if len(members) > 2:
            yield '%s: %s, %s: %s (%d): %s' % (a, s, b, t, len(members), '; '.join(sorted(members)))


def facts(tree):
    """Facts that three contracts or more ask for."""
    asked = collections.defaultdict(set)
    for name, text in sources(tree):
        for function, _, clauses, _ in functions(text):
            for clause in re.findall(r'requires \{ (.*) \}', clauses):
                for fact in re.split(r' × ', clause):
                    asked[fact.strip('() ')].add('%s %s' % (name, function))
    for fact, members in sorted(asked.items(), key=lambda pair: -len(pair[1])):
        if len(members) > 2:
            yield '%s (%d): %s' % (fact, len(members), '; '.join(sorted(members)))


def lengths(name, text):
    for type_name, body in types(text, 'struct'):
        fields = re.findall(r'(\w+): ', body)
        if {'from', 'to'} <= set(fields) or {'size', 'taken'} <= set(fields) or 'count' in fields:
            yield '%s %s: %s' % (name, type_name, ', '.join(fields))
    for found in re.finditer(r'let mut (\w+) = \[0u8; (\w+)\];', text):
        yield '%s %s: [u8; %s]' % (name, found.group(1), found.group(2))


def switches(name, text):
    for function, parameters, _, _ in functions(text):
        for parameter in re.findall(r'(\w+): bool', parameters):
            yield '%s %s(%s)' % (name, function, parameter)


def answers(tree):
    return sum(len(re.findall(r'^\s*pub [\w-]+ : goal\.', path.read_text(), re.M)) for path in pathlib.Path(tree).glob('crates/*/proofs/**/*.antt'))


def lines(tree, pattern):
    return sum(path.read_text().count('\n') for path in pathlib.Path(tree).glob(pattern))


def each(tree, look):
    return [place for name, text in sources(tree) for place in look(name, text)]


def main():
    tree = ([word for word in sys.argv[1:] if not word.startswith('--')] or ['.'])[0]
    found = [
        ('1a enums with two cases, one with data', each(tree, two_way_enums)),
        ('1b a flag beside a value, or 0 for none', each(tree, flags)),
        ('1c numbers and letters as kinds', each(tree, codes)),
        ('2 functions alike but for names, types and constants', list(twins(tree))),
        ('3 loops by while', each(tree, loops)),
        ('4a types without derived equality and printing', each(tree, underived)),
        ('4b conversions by arithmetic', each(tree, conversions)),
        ('4c functions that compare, copy, convert or choose', each(tree, by_hand)),
        ('5a parameters that stand together in three functions', list(travelling(tree))),
        ('5b facts that three functions ask for', list(facts(tree))),
        ('6 places or lengths beside bytes, buffers of a size', each(tree, lengths)),
        ('7 truth values that choose what is done', each(tree, switches)),
    ]
    for title, places in found:
        print('%-60s %4d' % (title, len(places)))
        if '--list' in sys.argv:
            for place in places:
                print('    ' + place)
    print('%-60s %4d' % ('8 answers in proofs', answers(tree)))
    for title, pattern in (('  lines of proofs', 'crates/*/proofs/**/*.antt'), ('  lines of definitions', 'crates/*/specs/*.antt'), ('  lines of source', 'crates/*/src/*.rt')):
        print('%-60s %4d' % (title, lines(tree, pattern)))


main()
