#!/usr/bin/env python3
"""Prints the wrong meanings that remarks name, `-- wrong: MEANING` in crates/*/proofs/, as tables by crate and file.

Such a remark stands above the example that breaks where the definition has that meaning, with other remarks between them at most. A remark
that stands above no example is named at the end, and the exit status is 1. docs/wrong_meanings.md tells what is planted, and how.

python3 docs/wrong_meanings.py [CRATE ..]      the tables of all crates, or of these
python3 docs/wrong_meanings.py --count         how many stand in each crate
"""
import pathlib
import re
import sys

TOP = pathlib.Path(__file__).resolve().parent.parent
REMARK, WRONG = '-- ', '-- wrong: '
EXAMPLE = re.compile(r'(?:pub )?([a-z]\w*) :(?= |$)')


def meanings_in(lines):
    """The remarks of a file's lines: the number of each one's line, its meaning, and the example below it, or None."""
    for place, line in enumerate(lines):
        if line.startswith(WRONG):
            below = place + 1
            while below < len(lines) and lines[below].startswith(REMARK):
                below += 1
            example = EXAMPLE.match(lines[below]) if below < len(lines) else None
            yield place + 1, line[len(WRONG):], example.group(1) if example else None


def files_of(crate):
    """The files of a crate's proofs that have such remarks, each with its first remark and those."""
    for path in sorted((TOP / 'crates' / crate / 'proofs').rglob('*.antt')):
        lines = path.read_text().split('\n')
        meanings = list(meanings_in(lines))
        if meanings:
            yield path, lines[0].removeprefix(REMARK), meanings


def misplaced():
    """What is wrong with these remarks."""
    for crate in crates():
        for path, _, meanings in files_of(crate):
            for number, meaning, example in meanings:
                if example is None:
                    yield f'{path.relative_to(TOP)}, line {number}: stands above no example: {meaning}'


def crates():
    return sorted(path.name for path in (TOP / 'crates').iterdir() if (path / 'proofs').is_dir())


def main():
    asked = [word for word in sys.argv[1:] if not word.startswith('-')] or crates()
    total = 0
    for crate in asked:
        found = list(files_of(crate))
        count = sum(len(meanings) for _, _, meanings in found)
        total += count
        if count and '--count' in sys.argv:
            print(f'{crate}: {count}')
        for path, head, meanings in [] if '--count' in sys.argv else found:
            print(f'**`{crate}`, `{path.stem}`**: {head}\n\n| wrong meaning | the example that breaks |\n|---|---|')
            print(*(f'| {meaning} | `{example}` |' for _, meaning, example in meanings), sep='\n', end='\n\n')
    faults = list(misplaced())
    print(f'{total} wrong meanings', *faults, sep='\n')
    return 1 if faults else 0


if __name__ == '__main__':
    sys.exit(main())
