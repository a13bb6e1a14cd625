#!/usr/bin/env python3
"""Checks that docs/index.md is up to date, that what other pages of docs/ cite is there, that each wrong meaning stands above an example, and
what docs/crates.py says of crates.txt and of wrong edits. Its reader of contracts is that of index.py, too.

Public calls are the functions that a crate exports, the methods of the types and the calls of the traits that it exports, and of what
those types have of the standard's traits `clone` alone, since nothing else of it may refuse. A function that does nothing and has a
contract is a law.

Names stand in backticks: `crate::call` or `crate::Type::call`. Each that a page cites must be a public call, and labels behind it those of
its clauses. What docs/faults.md cites is of a crate that one of the programs stands on, and a law is called so. The laws that docs/claims.md
names by crates must be theirs. A field of a record to which clauses of links come, `Record.field`, must be one of that record.

python3 docs/check_calls.py
"""
import functools
import pathlib
import re
import sys

TOP = pathlib.Path(__file__).resolve().parent.parent
PROGRAMS = ['rdp_host', 'rdp_look', 'rdp_view']
FAULTS = 'faults.md'
LAWS = '## Of the definitions alone'
CITING = [FAULTS, 'claims.md', 'errors.md', 'protocol.md', 'threads.md']

START = re.compile(r'\bghost\b|\b(?P<trait>(?:pub\s+)?trait)\s+(?P<named>\w+)|\bimpl\b|\bmod\s+\w+\s*\{'
                   r'|(?P<pub>\bpub(?P<within>\([^)]*\))?\s+)?(?:\bconst\s+)?(?:\bunsafe\s+)?\bfn\s+(?P<call>\w+)')
CLAUSE = re.compile(r'\s*(requires|ensures)\*?\s*(\w*)\s*\{')
CITED = re.compile(r'`([a-z_0-9]+)::([\w:]+)`(?:(?:(?: and|,) `\w+`)?, clauses? ((?:`\w+`(?:, | and )?)+))?')
OF_RECORD = re.compile(r'`([A-Z]\w*)\.(\w+)`')
LAW = re.compile(r'\blaws? (`[\w:]+`(,| and) )*$')
QUOTED = re.compile(r"b?'(\\.[^']*|[^'\\])'")


class Call:
    """A call of a source file: where its name stands; its type or trait, or None; the trait that it is of, or None; its head behind the
    name, and what it gives; labels of its clauses, and the text of these; its body, or an empty text; the head of its impl, or an empty text."""
    def __init__(self, file, place, owner, kind, of, name, public, head, labels, contract, body, is_law, bounds):
        self.file, self.place, self.owner, self.kind, self.of, self.name = file, place, owner, kind, of, name
        self.public, self.head, self.labels, self.contract, self.body, self.is_law = public, head, labels, contract, body, is_law
        self.bounds = bounds
        self.gives = head.rsplit('->', 1)[1].strip() if '->' in head else ''

    def path(self):
        return f'{self.owner}::{self.name}' if self.owner else self.name


def blanked(text):
    """The text with its remarks and literals as blanks, so that places stay."""
    out, i = [], 0
    while i < len(text):
        quoted = QUOTED.match(text, i)
        if text.startswith('//', i):
            end = text.find('\n', i)
            end = len(text) if end < 0 else end
        elif text[i] == '"':
            end = i + 1
            while text[end] != '"':
                end += 2 if text[end] == '\\' else 1
            end += 1
        elif quoted:
            end = quoted.end()
        else:
            out.append(text[i])
            i += 1
            continue
        out.append(re.sub(r'[^\n]', ' ', text[i:end]))
        i = end
    return ''.join(out)


def closing(text, i):
    """The place of the brace that closes the one at i."""
    depth = 0
    for j in range(i, len(text)):
        depth += (text[j] == '{') - (text[j] == '}')
        if depth == 0:
            return j
    raise SystemExit('a brace is not closed')


def head_of(text, i):
    """The head of a function from i on: its end, before clauses and body."""
    depth = 0
    for j in range(i, len(text)):
        if text[j] in '([':
            depth += 1
        elif text[j] in ')]':
            depth -= 1
        elif depth == 0 and (text[j] in '{;' or re.match(r'\b(requires|ensures)\b', text[j:j + 8])):
            return j
    raise SystemExit('a function has no end')


def function(text, i):
    """A function's head from i on, its labels, its clauses, its body or None, and where it ends."""
    start = end = head_of(text, i)
    labels = []
    while True:
        clause = CLAUSE.match(text, end)
        if clause is None:
            break
        if clause.group(1) == 'ensures':
            labels.append(clause.group(2))
        end = closing(text, clause.end() - 1) + 1
    contract = text[start:end]
    while text[end].isspace():
        end += 1
    if text[end] == ';':
        return text[i:start], labels, contract, None, end + 1
    close = closing(text, end)
    return text[i:start], labels, contract, text[end + 1:close], close + 1


def without_generics(head):
    if not head.startswith('<'):
        return head
    depth = 0
    for i, sign in enumerate(head):
        depth += (sign == '<') - (sign == '>' and head[i - 1] != '-')
        if depth == 0:
            return head[i + 1:].strip()
    return head


def calls_in(file, text, low, high, owner=None, kind='function', of=None, bounds=''):
    """The calls of a part of a source file, those of nested modules not with them. bounds: the head of the impl that they stand in."""
    while True:
        found = START.search(text, low, high)
        if found is None:
            return
        if found.group('call'):
            head, labels, contract, body, low = function(text, found.end())
            public = bool(found.group('pub')) and not found.group('within')
            is_law = body is not None and not body.strip() and bool(labels) and owner is None
            yield Call(file, found.start('call'), owner, kind, of, found.group('call'), public, head, labels, contract, body or '', is_law, bounds)
            continue
        stop = found.end() - 1
        while text[stop] not in '{;':
            stop += 1
        end = closing(text, stop) if text[stop] == '{' else stop
        if found.group('named'):
            yield from calls_in(file, text, stop + 1, end, found.group('named'), 'trait')
        elif found.group().startswith('impl'):
            head = without_generics(text[found.end():stop].strip())
            trait, _, name = head.rpartition(' for ')
            yield from calls_in(file, text, stop + 1, end, re.match(r'\w+', name.strip()).group(),
                                'of a trait' if trait else 'method', trait.strip() or None, text[found.end():stop])
        low = end + 1


def exports(text):
    """The names that a crate's root exports, each with its module, and the modules that it exports."""
    names = {}
    for use in re.finditer(r'\bpub\s+use\s+([\w:]+?)(?:::\{([^}]*)\})?;', text):
        for name in (use.group(2) or '').split(',') if use.group(2) else [use.group(1).rsplit('::', 1)[1]]:
            if name.strip():
                names[name.split(' as ')[-1].strip()] = use.group(1).split('::')[0]
    return names, set(re.findall(r'\bpub\s+mod\s+(\w+)', text))


@functools.lru_cache(maxsize=None)
def all_calls(crate):
    """The calls of all files of a crate's src, each with the module that its file is of."""
    source, found = TOP / 'crates' / crate / 'src', []
    for path in sorted(source.rglob('*.rt')):
        text = blanked(path.read_text())
        module = path.relative_to(source).parts[0].removesuffix('.rt')
        found.extend((module, call) for call in calls_in(path, text, 0, len(text)))
    return found


def public_calls(crate):
    """The public calls of a crate, by their paths."""
    root = TOP / 'crates' / crate / 'src' / 'lib.rt'
    if not root.exists():
        return {}
    names, modules = exports(blanked(root.read_text()))
    found = {}
    for module, call in all_calls(crate):
        if call.kind == 'function':
            reached = call.public and (module in modules or names.get(call.name) == module or call.file == root)
        elif call.kind == 'of a trait':
            reached = call.of == 'Clone' and call.owner in names
        else:
            reached = (call.public or call.kind == 'trait') and (call.owner in names or module in modules)
        if reached:
            found[call.path()] = call
    return found


def run_by(crate, named):
    """Which of the crates that a program names it runs: those that its tests alone name are none."""
    source = TOP / 'crates' / crate / 'src'
    if crate not in PROGRAMS or not source.exists():
        return named
    root = (source / 'main.rt').read_text()
    tests = set(re.findall(r'#\[cfg\(test\)\]\s*mod (\w+);', root))
    text = ' '.join(path.read_text() for path in source.rglob('*.rt') if path.stem not in tests)
    return [other for other in named if re.search(rf'\b{other}::', text)]


def stood_on(crates, tops=PROGRAMS):
    """The crates that these stand on, with them; the programs where none are named."""
    found, left = set(), list(tops)
    while left:
        crate = left.pop()
        if crate not in found:
            found.add(crate)
            left.extend(other for other in run_by(crate, crates[crate]) if other in crates)
    return found


def citations(page, calls, run):
    """What is wrong with the calls that a page of docs/ names."""
    for number, line in enumerate((TOP / 'docs' / page).read_text().splitlines(), 1):
        for found in CITED.finditer(line):
            crate, path, labels = found.groups()
            call = calls.get(crate, {}).get(path)
            where = f'docs/{page}, line {number}: {crate}::{path}'
            if page == FAULTS and crate in calls and crate not in run:
                yield f'{where} is run by no program'
            if call is None:
                if not any(other.startswith(path + '::') for other in calls.get(crate, {})):
                    yield f'{where} is no public call and no type that has one'
                continue
            if page == FAULTS and call.is_law and not LAW.search(line[:found.start()]):
                yield f"{where} is a law, and isn't called so"
            for label in re.findall(r'`(\w+)`', labels or ''):
                if label not in call.labels:
                    yield f'{where} has no clause {label}'


def laws_named(calls):
    """What is wrong with the laws that docs/claims.md names below 'Of the definitions alone': behind each crate's name those of its laws,
    and behind the word 'clause' labels of the last one."""
    inside, page = False, 'claims.md'
    for number, line in enumerate((TOP / 'docs' / page).read_text().splitlines(), 1):
        if line.startswith('## '):
            inside = line == LAWS
        if not inside or not line.startswith('| ') or line.startswith('| claim |'):
            continue
        crate, law, of_clause = None, None, False
        for found in re.finditer(r'`(\w+)`|\b(clauses?)\b|;', line.strip('| ').rsplit(' | ', 1)[1]):
            name = found.group(1)
            if name is None:
                of_clause = bool(found.group(2))
            elif name in calls:
                crate, of_clause = name, False
            elif of_clause:
                if law is not None and name not in law.labels:
                    yield f'docs/{page}, line {number}: {crate}::{law.name} has no clause {name}'
            else:
                law = calls.get(crate, {}).get(name)
                if law is None or not law.is_law:
                    yield f'docs/{page}, line {number}: {crate}::{name} is no law'


def fields_named(found):
    """What is wrong with the fields that the pages of docs/ name, of records to which clauses of links come."""
    fields = {name: record.fields for (_, _, name), record in found.items()}
    for page in sorted((TOP / 'docs').glob('*.md')):
        for number, line in enumerate(page.read_text().splitlines(), 1):
            for name, field in OF_RECORD.findall(line):
                if name in fields and field not in fields[name]:
                    yield f'docs/{page.name}, line {number}: {name} has no field {field}'


def listed_crates():
    """The crates of crates.txt in their order, each with what it stands on."""
    return {line.split(':')[0].split()[0]: line.split(':')[1].split() for line in (TOP / 'crates.txt').read_text().splitlines()
            if line.strip() and not line.startswith('#')}


def main():
    import crates as crates_txt
    import index
    import records
    import wrong_meanings
    crates = listed_crates()
    calls = {crate: public_calls(crate) for crate in crates}
    run = stood_on(crates)
    faults = [fault for page in CITING for fault in citations(page, calls, run)] + list(laws_named(calls))
    faults.extend(fields_named(records.records_of(calls)))
    faults.extend(wrong_meanings.misplaced())
    faults.extend(crates_txt.faults(crates, calls))
    if not index.is_written():
        faults.append("docs/index.md isn't up to date: python3 docs/index.py")
    for fault in faults:
        print(fault)
    print(f'{sum(map(len, calls.values()))} public calls, {len(faults)} faults')
    return 1 if faults else 0


if __name__ == '__main__':
    # (as the module that the others import, so that each source is read once)
    import check_calls
    sys.exit(check_calls.main())
