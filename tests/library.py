#!/usr/bin/env python3
"""Holds include/feyqoolad.h to the sources: it declares each exported function as it is, and its constants are those of the crates."""
import re
import sys

HEADER, SOURCE = 'include/feyqoolad.h', 'crates/exports/src/lib.rt'
TYPES = {'u8': 'uint8_t', 'u32': 'uint32_t', 'u64': 'uint64_t', 'bool': 'bool'}
# A constant of the header, and where the sources have it.
CONSTANTS = {'FQ_TABLE_SIZE': ('table', 'SIZE'), 'FQ_TABLE_KEYS': ('table', 'KEYS'), 'FQ_NAME_LIMIT': ('message', 'NAME'),
             'FQ_KEY_LIMIT': ('message', 'KEY'), 'FQ_VALUE_LIMIT': ('message', 'VALUE'), 'FQ_TEXT_LIMIT': ('message', 'TEXT'),
             'FQ_LONGEST_LINE': ('server', 'LONGEST')}


def read(path):
    with open(path, encoding='utf-8') as file:
        return file.read()


def in_c(word):
    """The parameters that one of the sources' becomes: a slice is a pointer and a length."""
    name, kind = word.split(': ')
    slice_of = re.fullmatch(r'&(mut )?\[(\w+)\]', kind)
    if not slice_of:
        return f'{TYPES[kind]} {name}'
    return f"{'' if slice_of[1] else 'const '}{TYPES[slice_of[2]]} *{name}, size_t {name}_len"


def exported():
    """The declaration in C of each exported function."""
    for name, words, answer in re.findall(r'#\[unsafe\(no_mangle\)\]\npub extern "C" fn (\w+)\(([^)]*)\) -> (\w+)', read(SOURCE)):
        words = [word.strip() for word in words.split(',') if word.strip()]
        yield f"{TYPES[answer]} {name}({', '.join(in_c(word) for word in words)});"


def declared():
    text = re.sub(r'/\*.*?\*/', '', read(HEADER), flags=re.S)
    return [re.sub(r'\s+', ' ', one) for one in re.findall(r'^(?:uint64_t|bool) \w+\([^)]*\);', text, flags=re.M)]


def constants():
    """Each constant of the header that is not the sources'."""
    text = read(HEADER)
    for name, (crate, word) in CONSTANTS.items():
        value = re.search(rf'pub const {word}: \w+ = ([\d_]+);', read(f'crates/{crate}/src/lib.rt'))
        if not value or not re.search(rf'#define {name} {value[1]}\s', text):
            yield f'{name} is not {crate}\'s {word}, {value and value[1]}'


if __name__ == '__main__':
    functions = list(exported())
    faults = [f'it does not declare {one}' for one in functions if one not in declared()]
    faults += [f'the library does not export {one}' for one in declared() if one not in functions]
    faults += constants()
    for fault in faults:
        print(f'{HEADER}: {fault}')
    print(f'library: {HEADER} declares {len(functions)} functions')
    sys.exit(1 if faults or not functions else 0)
