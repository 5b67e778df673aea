#!/usr/bin/env python3
"""The code of a function and of all that it calls, as it is proved and compiled: code.py CRATE FUNCTION.

A line for each function: its name, and the types of its locals, of the fields of its structs and of its constants, parted by tabs.
What is read is crates/CRATE/out, which tools/build fills.
"""
import json
import os
import sys

CRATES = os.path.join(os.path.dirname(os.path.abspath(__file__)), '..', 'crates')
# Numbers that are no width.
PLAIN = {'local', 'value', 'bits', 'Field', 'Variant', 'Exit', 'lifetimes', 'type_params'}


def code_of(crate):
    with open(os.path.join(CRATES, crate, 'out', 'rlib', crate + '.rlib', 'toolchain', 'mir.json'), encoding='utf-8') as file:
        return dict(json.load(file))


def types_in(code):
    """The words for the types that a piece of code names."""
    if isinstance(code, dict):
        for key, value in code.items():
            if key in ('Int', 'Float') and isinstance(value, dict):
                yield f"{key} {value['width']}"
            elif isinstance(value, int) and key not in PLAIN:
                yield f'{key} {value}'
            elif key == 'Named':
                yield key
            else:
                yield from types_in(value)
    elif isinstance(code, list):
        for part in code:
            yield from types_in(part)


def of_locals(types):
    """The same for the types of locals and of fields, where a word stands for a type, and any other form is one too. Of a generic struct its
    arguments are told where it is named."""
    for type_ in types:
        form = next(iter(type_)) if isinstance(type_, dict) else type_
        yield f'{form} {type_[form]}' if form in ('Int', 'Float') else form
        if form == 'Named':
            yield from of_locals(type_[form][1])


def shapes(declared):
    """The types of the fields of the structs and enums, but for those that are the parameters of a generic one."""
    for type_ in declared:
        (form, fields), = type_['shape'].items()
        fields = fields if form == 'Fields' else [field for variant in fields for field in variant]
        yield from of_locals(field for field in fields if not (isinstance(field, dict) and 'Param' in field))


def called(code):
    if isinstance(code, dict):
        if 'Fn' in code:
            yield code['Fn'][0]
        for part in code.values():
            yield from called(part)
    elif isinstance(code, list):
        for part in code:
            yield from called(part)


def main(crate, function):
    code, left, seen = code_of(crate), [function], set()
    while left:
        name = left.pop(0)
        if name in seen:
            continue
        seen.add(name)
        if name not in code:
            sys.exit(f'code.py: {crate} has no code of {name}')
        it = code[name]
        types = [*of_locals(local['ty'] for local in it['locals']), *shapes(it['types']), *types_in(it['body'])]
        print(name, *sorted(set(types)), sep='\t')
        left += called(it['body'])


if __name__ == '__main__':
    main(*sys.argv[1:])
