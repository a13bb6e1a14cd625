"""Checks crates.txt and the wrong edits, for docs/check_calls.py. Faults are:

- an edge that no file of the crate names, in src/, specs/, proofs/ or must-fail/;
- more than MOST_WAYS ways of libraries, in all: `rt` sums a crate's files once for each way through crates.txt that leads to it. A library
  has one of its own, and one for each way of what it stands on;
- a may_wait that isn't the number of functions under `Wait`. The prover counts those whose own head or whose impl's has that bound, and the `main` of a
  program that calls one; so they are counted by these heads here, those of tests not with them, and a `main` where its crate or one that
  it names has such a function;
- a crate with more than MOST_EDITS edits in must-fail/ beside its named ones, which are those of a table of docs/working.md; one of these
  that isn't there; an edit that stands there and in bench/wrong_bodies/, or that a page cites and that stands in neither;
- a public call that may want memory and that nothing calls, neither another crate nor another call of its own, tests of which don't count.
  It may want it where its answer has `OutOfMemory` or an enumeration with a variant that does. A function is called by its name, in a
  crate that names its crate; a method by its name behind a dot or its type, in any crate above.
"""
import re

from check_calls import TOP, all_calls, stood_on

MOST_WAYS = 100_000
MOST_EDITS = 4

PAGE = 'working.md'
NAMED = '| crate | its named wrong bodies |'

PARTS = ['src', 'specs', 'proofs', 'must-fail']
REMARK = re.compile(r'(?:(?<!:)//|--).*')
NAMES = re.compile(r'\b(\w+)::|\bRattle\.(\w+)\.|\buse (?!Rattle\b)(\w+)\b')
COUNT = re.compile(r'\bmay_wait=(\d+)')
TESTS = re.compile(r'#\[cfg\(test\)\]\s*mod\s+(\w+);')
WAIT = re.compile(r'\bWait\b')
ENUM = re.compile(r'\benum\s+(\w+)[^{;]*\{([^}]*(?:\{[^}]*\}[^}]*)*)\}')
WORD = re.compile(r'\w+')
BEHIND_A_DOT = re.compile(r'\.(\w+)(?:::<[^(]*>)?\(')
BEHIND_A_TYPE = re.compile(r'\b(\w+)(?:::<[^(]*>)?::(\w+)')
ROOTS = ['lib.rt', 'main.rt']
CITED = re.compile(r'\b[Ww]rong edits? ((?:`\w+`(?:, | and )?)+)')


def text_of(crate, parts):
    """What stands in these parts of a crate, without remarks."""
    files = (path for part in parts for path in sorted((TOP / 'crates' / crate / part).rglob('*')) if path.is_file())
    return REMARK.sub('', '\n'.join(path.read_text() for path in files))


def unnamed(crates):
    """The edges that no file names."""
    for crate, others in crates.items():
        named = {name for found in NAMES.findall(text_of(crate, PARTS)) for name in found}
        for other in others:
            if other not in named:
                yield f'crates.txt: no file of {crate} names {other}'


def is_library(crate):
    return (TOP / 'crates' / crate / 'src' / 'lib.rt').exists()


def ways_of(crates):
    """How many ways lead from each crate to what is summed with it, itself among that."""
    ways = {}

    def count(crate):
        if crate not in ways:
            ways[crate] = 1 + sum(count(other) for other in crates[crate] if other in crates)
        return ways[crate]

    for crate in crates:
        count(crate)
    return ways


def too_many_ways(crates):
    found = sum(ways for crate, ways in ways_of(crates).items() if is_library(crate))
    if found > MOST_WAYS:
        yield f'crates.txt: {found:,} ways of libraries, of {MOST_WAYS:,} at most'


def own_calls(crate):
    """The calls of a crate that are no tests."""
    source = TOP / 'crates' / crate / 'src'
    tests = {name for root in ROOTS if (source / root).exists() for name in TESTS.findall((source / root).read_text())}
    return [call for module, call in all_calls(crate) if module not in tests]


def stale_counts(crates):
    """What is wrong with the numbers of may_wait."""
    waits = {crate: sum(bool(WAIT.search(call.head + call.bounds)) for call in own_calls(crate)) for crate in crates}
    for line in (TOP / 'crates.txt').read_text().splitlines():
        head = line.split(':')[0].split()
        if not head or head[0] not in crates:
            continue
        crate, said = head[0], COUNT.search(line)
        said = int(said.group(1)) if said else 0
        wanted = waits[crate]
        if not is_library(crate):
            wanted += any(waits.get(other) for other in [crate, *crates[crate]])
        if said != wanted:
            yield f'crates.txt: may_wait of {crate} is {said}, and {wanted} functions are under Wait'


def edits_in(folder):
    return {path.stem for path in folder.glob('*.edit')}


def named_edits():
    """The named wrong bodies, by crate."""
    named, inside = {}, False
    for line in (TOP / 'docs' / PAGE).read_text().splitlines():
        inside = line == NAMED or inside and line.startswith('|')
        if inside and line.startswith('| `'):
            crate, *edits = re.findall(r'`(\w+)`', line)
            named[crate] = set(edits)
    return named


def misplaced_edits(crates):
    """What is wrong with the wrong edits of the gate and with those outside of it."""
    named, everywhere = named_edits(), set()
    for crate in dict.fromkeys([*crates, *named, *(path.name for path in sorted((TOP / 'bench' / 'wrong_bodies').iterdir()))]):
        here, outside = edits_in(TOP / 'crates' / crate / 'must-fail'), edits_in(TOP / 'bench' / 'wrong_bodies' / crate)
        everywhere |= here | outside
        if crate not in crates:
            yield f'wrong edits are of {crate}, which is no crate'
        for edit in sorted(named.get(crate, set()) - here):
            yield f'docs/{PAGE} names the wrong body {edit}, which is not in must-fail/ of {crate}'
        more = len(here - named.get(crate, set()))
        if more > MOST_EDITS:
            yield f'{crate} has {more} wrong edits beside its named ones, of {MOST_EDITS} at most: bench/wrong_bodies/'
        for edit in sorted(here & outside):
            yield f'the wrong edit {edit} of {crate} stands in must-fail/ and in bench/wrong_bodies/'
    for page in sorted((TOP / 'docs').glob('*.md')):
        for number, line in enumerate(page.read_text().splitlines(), 1):
            for edit in (edit for cited in CITED.findall(line) for edit in re.findall(r'`(\w+)`', cited)):
                if edit not in everywhere:
                    yield f'docs/{page.name}, line {number}: no crate has the wrong edit {edit}'


class Words:
    """What stands in the bodies of calls: all words, those behind a dot, and those behind a type."""
    def __init__(self, calls):
        text = '\n'.join(call.body for call in calls)
        self.all, self.behind_dots, self.behind_types = set(WORD.findall(text)), set(BEHIND_A_DOT.findall(text)), set(BEHIND_A_TYPE.findall(text))

    def call(self, call):
        if call.owner is None:
            return call.name in self.all
        # (a trait's call stands behind a parameter, too)
        owners = {owner for owner, name in self.behind_types if name == call.name}
        return call.name in self.behind_dots or bool(owners & {call.owner, 'Self'}) or call.kind == 'trait' and bool(owners)


def memory_words(crates):
    """The names of types that say, or may say, that no memory was left."""
    enums = [(name, set(WORD.findall(body))) for crate in crates for name, body in ENUM.findall(text_of(crate, ['src']))]
    found = {'OutOfMemory'}
    while True:
        more = {name for name, words in enums if words & found} - found
        if not more:
            return found
        found |= more


def uncalled(crates, calls_of):
    """The calls that may want memory and that nothing calls."""
    words = {crate: Words(call for _, call in all_calls(crate)) for crate in crates}
    below = {crate: stood_on(crates, [crate]) for crate in crates}
    memory = memory_words(crates)
    for crate, calls in calls_of.items():
        above = [other for other in crates if other != crate and crate in below[other]]
        for call in calls.values():
            if call.is_law or not set(WORD.findall(call.gives)) & memory:
                continue
            if any(words[other].call(call) for other in above if call.owner or crate in crates[other]):
                continue
            if not Words(other for other in own_calls(crate) if other.place != call.place or other.file != call.file).call(call):
                yield f'{crate}::{call.path()} may want memory, and nothing calls it'


def faults(crates, calls_of):
    """What is wrong, with the public calls of each crate given."""
    yield from unnamed(crates)
    yield from too_many_ways(crates)
    yield from stale_counts(crates)
    yield from misplaced_edits(crates)
    yield from uncalled(crates, calls_of)
