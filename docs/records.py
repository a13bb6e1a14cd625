"""Reads the records of specs/ that clauses of links come to, for docs/check_calls.py, which looks for the fields that pages name.
"""
import re

from check_calls import TOP

CRATES = ['serve_rules', 'viewer_run', 'gate_run']

USE = re.compile(r'^\s*(?:ghost )?use Rattle\.(\w+)\.specs\.(\w+)\.\{([^}]*)\}', re.M)
DEFINED = re.compile(r'( *)(?:abbrev pub|abbrev|unfoldable pub|pub data|pub (record)) (\w+)\b')
FIELD = re.compile(r' *(?:pub )?(\w+) :')
WORD = re.compile(r'\w+')
REMARK = '-- '


class Definition:
    """A definition of specs/: the names that stand in it, and of a record its fields."""
    def __init__(self, fields, names):
        self.fields, self.names = fields, names


def names_used(text):
    """What a source uses of specs/, by the name that it has there: its crate, its module and its own name."""
    found = {}
    for crate, module, names in USE.findall(text):
        for name in filter(None, map(str.strip, names.split(','))):
            found[name.split(' as ')[-1]] = (crate, module, name.split(' as ')[0])
    return found


def definitions_of(crate):
    """The definitions of a crate, by crate, module and name."""
    found = {}
    for path in sorted((TOP / 'crates' / crate / 'specs').glob('*.antt')):
        text = path.read_text()
        used, lines = names_used(text), text.split('\n')
        starts = [(place, DEFINED.match(line)) for place, line in enumerate(lines) if DEFINED.match(line)]
        for (place, head), end in zip(starts, [place for place, _ in starts[1:]] + [len(lines)]):
            body = lines[place:end]
            words = {word for line in body if not line.lstrip().startswith(REMARK) for word in WORD.findall(line)} - {head.group(3)}
            of_record = [FIELD.match(line) for line in body[1:] if len(line) - len(line.lstrip()) == len(head.group(1)) + 2]
            fields = [field.group(1) for field in of_record if field] if head.group(2) else None
            found[crate, path.stem, head.group(3)] = Definition(fields, [used.get(word, (crate, path.stem, word)) for word in sorted(words)])
    return found


def records_of(calls_of):
    """The records that clauses of these crates' calls come to: those that they name, and those of which these and other definitions there
    are made, by crate, module and name."""
    definitions = {key: definition for crate in CRATES for key, definition in definitions_of(crate).items()}
    left, reached = [], set()
    for call in (call for crate in CRATES for call in calls_of[crate].values()):
        words = set(WORD.findall(call.contract))
        left.extend(key for name, key in names_used(call.file.read_text()).items() if name in words)
    while left:
        key = left.pop()
        if key in definitions and key not in reached:
            reached.add(key)
            left.extend(definitions[key].names)
    return {key: definition for key, definition in definitions.items() if key in reached and definition.fields}
