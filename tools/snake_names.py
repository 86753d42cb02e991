#!/usr/bin/env python3
"""Brings the repository's own names to the library's spelling: words in snake case, types in camel case.

It was run once, behind the kit's port.py and in the same commit. A name of a definition, lemma, field or local of specs/, proofs/ or a
clause that begins with a small letter loses its capitals (`instructionsOf` is `instructions_of`); a hyphen between two words of a lemma's name
stays. Names of functions, types, constants and exports are as they were, and so is what stands between double quotes.
"""
import os
import re
from pathlib import Path

ROOT = Path(__file__).resolve().parent.parent
WORD = re.compile(r"(?<![A-Za-z0-9_'])[a-z][A-Za-z0-9_]*")

# Lemmas whose names would fall together with the name of a definition: the hyphen that they had comes back.
BACK = {
    'crates/graph/specs/Room.antt': 'all_edges',
    'crates/records/specs/Values.antt': 'no_value size_in',
    'crates/planner/specs/RowLists.antt': 'row_list',
    'crates/layout/specs/Whole.antt': 'block_run',
    'crates/layout/specs/Stepped.antt': 'next_place',
    'crates/writing/specs/Steps.antt': 'next_place',
    'crates/demand3/specs/WrittenFile.antt': 'in_order',
    'crates/demand3/specs/Verdicts.antt': 'in_order',
    'crates/rewriting/specs/Plans.antt': 'in_order',
    'crates/rewriting/specs/Found.antt': 'in_order',
    'crates/rewriting/specs/Planning.antt': 'in_order',
    'crates/simulation/specs/Checking.antt': 'is_known',
}
# Predicates that were spelt as words.
TYPES = {
    'crates/': {'blockBody': 'BlockBody', 'standsAs': 'StandsAs'},
    'crates/spiller/specs/InstructionSteps.antt': {'whole': 'Whole'},
}
# Its own `blockBody` is a list of records.
APART = 'crates/records/specs/Reading.antt'


def snake(name):
    # behind an underscore the library has the name of a type, as in `not_T`
    return re.sub(r'(?<=[a-z0-9])[A-Z]', lambda m: '_' + m[0].lower(), name)


def snaked(text):
    """The text with each such name in snake case, but for what is quoted."""
    parts = re.split(r'("(?:[^"\\\n]|\\.)*")', text)
    return ''.join(part if i % 2 else WORD.sub(lambda m: snake(m[0]), part) for i, part in enumerate(parts))


def retyped(name, text):
    for place, names in TYPES.items():
        if name.startswith(place) and name != APART:
            for old, new in names.items():
                text = re.sub(rf"(?<![\w'.-]){old}(?![\w'-])", new, text)
    return text


def back(name, text):
    for old in BACK.get(name, '').split():
        text = re.sub(rf"(?<![\w'-]){old}(?![\w'-])", old.replace('_', '-'), text)
    return text


def texts():
    for folder, inner, names in os.walk(ROOT / 'crates'):
        inner[:] = [i for i in inner if i != 'out']
        yield from (Path(folder) / file for file in names if file.endswith(('.antt', '.rt', '.edit')))
    yield from (ROOT / 'edits').glob('*/*.edit')


def main():
    for path in texts():
        name = str(path.relative_to(ROOT))
        before = path.read_text(encoding='utf-8')
        after = snaked(back(name, retyped(name, before)))
        if after != before:
            path.write_text(after, encoding='utf-8')
    # All such words of the pages are names of the above.
    for path in [ROOT / 'README.md', ROOT / 'CHANGELOG.md', *(ROOT / 'docs').glob('*.md')]:
        if path.name != 'PORT.md':
            before = path.read_text(encoding='utf-8')
            path.write_text(WORD.sub(lambda m: snake(m[0]), before), encoding='utf-8')


if __name__ == '__main__':
    main()
