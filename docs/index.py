#!/usr/bin/env python3
"""Writes docs/index.md: each public call of each crate of crates.txt, what it may answer and the labels of its clauses, each type of answer
with what its own comment says of it. Everything in it comes from the sources, by the reader of contracts in check_calls.py.

python3 docs/index.py            writes it
python3 docs/index.py --check    says whether the written one is up to date, and ends with 1 where it isn't
"""
import re
import sys

import check_calls
from check_calls import TOP, blanked, closing

WRITTEN = TOP / 'docs' / 'index.md'

HEAD = '''# Index of public calls

Every call that can be reached from outside of its crate: functions that a crate exports, methods of types and calls of traits that it exports (a type that has the trait answers by the same clauses), and the copies (`clone`) of `edge_io`. `python3 docs/index.py` writes this page from the sources; `--check` says whether it is up to date.

## Answers

What calls may answer instead of what was asked for, and other answers of at most four kinds, in the words of the source. `OutOfMemory` behind a type is one of its answers: no memory was left. Where nothing stands behind an answer with `at`, a field breaks its rule or doesn't fit, and `at` is the place of its first byte.

'''

BELOW = '''
## Calls

By crates, the lowest first, with what runs them. A line has calls that may answer the same (`→`; `None` is that of an `Option`) and have clauses of the same labels. The clauses stand in a call's contract in the source; *one* is an only clause, which has no label, and a dash is none. *Plain* calls refuse nothing and have one clause.

Behind the labels stands the call's own comment on what is left after a refusal or want of memory: *front* is "An `Err` leaves a front of it there", *same* is "An `Err` leaves what it was called on as it was". Where nothing follows, the call only borrows what it is given, or makes a value, which an `Err` doesn't have, or its clauses say it. `errors.md` says what a place is, and lists what no clause tells; `threads.md` says what the records of links hold that clauses there name.

'''

ENUM = re.compile(r'\bpub\s+enum\s+(\w+)[^{;]*\{')
UNIT = re.compile(r'\bpub\s+struct\s+(\w+)(?:\s*;|\s*\{)')
VARIANT = re.compile(r'\s*(\w+)')
FIELD = re.compile(r'\b(\w+):(?!:)')
LEAVES = re.compile(r'`Err`|`ReadFault`|want of memory|A refusal leaves|the refusal is at')
MOST_KINDS = 4
ONE = '*one*'
FRONT = re.compile(r'(An|After an) `Err`( is want of memory and)? (leaves )?a front of (it|them|the order|the body|the bytes|the line|the text)( was appended| there)\.')
SAME = re.compile(r'An `Err` leaves (the (vector|board|surface|blocks|caches|cache) as (it was|they were))\.|An `Err` changes nothing\.|After an `Err` the (cache is|blocks are) as before\.')
NO_MEMORY = re.compile(r'No memory was left( for [\w ]*)?\.|There is no memory for [\w ]*\.')
OF_A_FIELD = re.compile(r"A field (breaks its rule or doesn't fit|doesn't fit in what is left|breaks its rule or doesn't fit in what is left)(; `at` is the (place|offset in bytes) of its first byte(, from the (body|slice)'s start)?)?\.")


class Type:
    """An enumeration, or a type that is one answer: its crate, its comment, and its variants, each with its comment."""
    def __init__(self, crate, name, comment, variants):
        self.crate, self.name, self.comment, self.variants = crate, name, comment, variants


def comment_above(text, place):
    """The comment right above the line of a place, as one line."""
    lines = text[:place].split('\n')[:-1]
    found = []
    while lines and lines[-1].strip().startswith(('///', '#[')):
        line = lines.pop().strip()
        if line.startswith('///'):
            found.append(line[3:].strip())
    return ' '.join(part for part in reversed(found) if part)


def variants_of(text, blank, start, end):
    """The variants between two braces, each with its comment."""
    found, place = [], start
    while True:
        while place < end and (blank[place].isspace() or blank[place] == ','):
            place += 1
        if blank.startswith('#[', place):
            place = blank.index(']', place) + 1
            continue
        name = VARIANT.match(blank, place)
        if place >= end or name is None:
            return found
        stop, depth = name.end(), 0
        while stop < end and (depth or blank[stop] != ','):
            depth += (blank[stop] in '({[') - (blank[stop] in ')}]')
            stop += 1
        fields = FIELD.findall(blank, name.end(), stop) if blank[name.end():stop].lstrip().startswith('{') else []
        found.append((f'{name.group(1)} {{ {", ".join(fields)} }}' if fields else name.group(1), comment_above(text, name.start(1))))
        place = stop


def types_of(crates):
    """The enumerations of all crates and the types that may be the second one of a `Result`, by crate and name."""
    found = {}
    for crate in crates:
        for path in sorted((TOP / 'crates' / crate / 'src').rglob('*.rt')):
            text = path.read_text()
            blank = blanked(text)
            for enum in ENUM.finditer(blank):
                end = closing(blank, enum.end() - 1)
                variants = variants_of(text, blank, enum.end(), end)
                found[crate, enum.group(1)] = Type(crate, enum.group(1), comment_above(text, enum.start()), variants)
            for unit in UNIT.finditer(blank):
                found.setdefault((crate, unit.group(1)), Type(crate, unit.group(1), comment_above(text, unit.start()), None))
    return found


def parts_of(text):
    """The parts of a text between the commas that stand outside of brackets."""
    parts, depth, last = [], 0, 0
    for place, sign in enumerate(text):
        depth += (sign in '<([') - (sign in '>)]')
        if sign == ',' and depth == 0:
            parts.append(text[last:place])
            last = place + 1
    return parts + [text[last:]]


def errors_in(gives):
    """The names of the types that stand second in the `Result`s of what a call gives."""
    for result in re.finditer(r'\bResult<', gives):
        yield parts_of(gives[result.end():])[1].strip().rstrip('>) ')


def answers_in(gives, crate, types, below, errors):
    """The types of answers in what a call gives, and whether it may give `None`."""
    found, none = [], False
    gives = gives.strip()
    outer = re.match(r'(\w+)<(.*)>$', gives, re.S)
    if outer and outer.group(1) in ('Result', 'Option'):
        parts = parts_of(outer.group(2))
        inner, none = answers_in(parts[0], crate, types, below, errors)
        if outer.group(1) == 'Option':
            return inner, True
        error = parts[1].strip()
        if not error.startswith('fmt::'):
            found.append((type_named(error, crate, types, below), error))
        return found + [answer for answer in inner if answer not in found], none
    if gives.startswith('('):
        for part in parts_of(gives[1:-1]):
            inner, maybe = answers_in(part, crate, types, below, errors)
            found, none = found + [answer for answer in inner if answer not in found], none or maybe
        return found, none
    name = re.match(r"&?(?:'\w+ )?(\w+)", gives)
    kind = type_named(name.group(1), crate, types, below) if name else None
    if kind is not None and kind.variants and (kind in errors or len(kind.variants) <= MOST_KINDS and kind.variants[0][1]):
        found.append((kind, kind.name))
    return found, none


def type_named(name, crate, types, below):
    """The type of a name in a crate: its own, or that of the highest crate below that has one."""
    name = name.split('::')[-1].split('<')[0]
    for other in [crate] + below[crate]:
        if (other, name) in types:
            return types[other, name]
    return None


def leaves(call):
    """What the call's comment says of what stands after a refusal."""
    comment = comment_above(call.file.read_text(), call.place)
    return ' '.join(sentence for sentence in re.split(r'(?<=[.])\s+', comment) if LEAVES.search(sentence))


def short(left):
    """The comment with the page's words for its two commonest sentences."""
    left = SAME.sub('*same*.', FRONT.sub('*front*.', left))
    return left.removesuffix('.') if left in ('*front*.', '*same*.') else left


def labels_of(call):
    return ', '.join(label or ONE for label in dict.fromkeys(call.labels)) if call.labels else '–'


def names_of(owner, names):
    """The names of calls of one type, the first with the type."""
    return '`' + (f'{owner}::' if owner else '') + ', '.join(names) + '`'


def lists_of(crate, calls, answers, before):
    """A crate's calls: a line for those with the same answers, labels and comment, and one for all that refuse nothing and have one clause.
    A long comment that a call before has too is named by that call."""
    rows = {}
    for call in calls:
        answer, labels = answers[call.path()], labels_of(call)
        kind = ('', ONE, '') if not answer and labels == ONE else (answer, labels, leaves(call) if answer else '')
        rows.setdefault(kind, {}).setdefault(call.owner or '', []).append(call.name)
    for (answer, labels, left), owners in sorted(rows.items(), key=lambda row: row[0] == ('', ONE, '')):
        names = '; '.join(names_of(owner, names) for owner, names in owners.items())
        if not answer and labels == ONE:
            yield f'- Plain: {names}\n'
            continue
        said = f'As `{before[left]}`' if len(left) > 90 and left in before else short(left)
        before.setdefault(left, f'{crate}::' + names_of(*next(iter(owners.items()))).strip('`').split(',')[0])
        yield f'- {names}{f" → {answer}" if answer else ""}: {labels}{f". {said}" if said else ""}\n'


def where(crate, runs):
    """Which programs run a crate, of the crates that each of them stands on."""
    found = [f'`{program}`' for program, stood_on in zip(check_calls.PROGRAMS, runs) if crate in stood_on]
    if len(found) == len(runs):
        return 'each program'
    return ', '.join(found) or 'no program'


def page():
    """The page, from the sources."""
    crates = check_calls.listed_crates()
    order = list(crates)
    runs = [check_calls.stood_on(crates, [program]) for program in check_calls.PROGRAMS]
    below = {crate: sorted(check_calls.stood_on(crates, [crate]) - {crate}, key=order.index, reverse=True) for crate in crates}
    types = types_of(crates)
    calls_of = {crate: check_calls.public_calls(crate) for crate in order}
    errors = {type_named(name, crate, types, below) for crate, calls in calls_of.items() for call in calls.values() for name in errors_in(call.gives)}
    used, parts, before = {}, [], {}
    for crate, calls in calls_of.items():
        if not calls:
            continue
        laws = [call for call in calls.values() if call.is_law]
        others = sorted((call for call in calls.values() if not call.is_law), key=lambda call: (call.owner is not None, call.owner or ''))
        parts.append(f'### `{crate}` ({where(crate, runs) if others else "laws alone"})\n\n')
        answers = {}
        for call in others:
            found, none = answers_in(call.gives, crate, types, below, errors)
            for kind, name in found:
                if kind is not None:
                    used[kind.crate, kind.name] = kind
            names = list(dict.fromkeys(name for _, name in found)) + ['None'] * none
            answers[call.path()] = ', '.join(names)
        parts.extend(lists_of(crate, others, answers, before))
        if laws:
            told = {law: labels_of(law) for law in laws}
            parts.append('- Laws: `' + '; '.join(law.name + (f' ({told[law]})' if told[law] != ONE else '') for law in laws) + '`\n')
        parts.append('\n')
    lines = []
    for key in sorted(used, key=lambda key: (order.index(key[0]), key[1])):
        kind = used[key]
        told = [(name, OF_A_FIELD.sub('', comment)) for name, comment in kind.variants or [] if name != 'OutOfMemory' or not NO_MEMORY.fullmatch(comment)]
        also = ', `OutOfMemory`' if kind.variants and len(told) < len(kind.variants) else ''
        said = ' '.join(f'`{name}`{":" if comment else "."} {comment}'.strip() for name, comment in told) if kind.variants else kind.comment
        lines.append(f'- **`{kind.crate}::{kind.name}`**{also}. {said}')
    return HEAD + '\n'.join(lines) + '\n' + BELOW + ''.join(parts).rstrip('\n') + '\n'


def is_written():
    return WRITTEN.exists() and WRITTEN.read_text() == page()


def main():
    if sys.argv[1:] == ['--check']:
        written = is_written()
        print('docs/index.md is up to date' if written else "docs/index.md isn't up to date: python3 docs/index.py")
        return 0 if written else 1
    WRITTEN.write_text(page())
    return 0


if __name__ == '__main__':
    sys.exit(main())
