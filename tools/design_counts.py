#!/usr/bin/env python3
"""Counts the places of docs/DESIGN-PASS.md in crates/*/src, by reading the sources as text. Run it at the top of the checkout.

    python3 tools/design_counts.py 1 .. 8      the places of a point, a line each: which rule finds it, and the function or type with its crate
    python3 tools/design_counts.py 1b 2b 3b    those of the points 1 to 3 in another way
    python3 tools/design_counts.py             how many places each has

A place is a function or a type, found by one rule or more; for point 5 it is a fact or a set of parameters, and for point 8 a crate. `[C]` marks a function that C calls."""
import collections
import difflib
import glob
import itertools
import os
import re
import sys

Function = collections.namedtuple('Function', 'crate name params result clauses body is_export inside imports')
Type = collections.namedtuple('Type', 'crate name sort body')

# Functions and types that differ in a type, a size, a constant or the function that they call, as a reader of all sources finds them. A group counts as long as two of it stand.
TWINS = {
    'answer of a reader': 'field::ByteRead field::NumberRead field::VersionRead field::SecondRead field::SpanRead statistics::StatisticsRead request_reader::FrontRead '
                          'request_reader::OptionsRead request_reader::ArgsRead request_reader::RequestRead reply_reader::ReplyRead listing::EntryRead',
    'a value or none': 'text::Pending hexadecimal::NumberRead message::Found listing::Size table::Found plan::Held server::lines::LineRead board::sheet::Count',
    'a value or a refusal': 'message::Sent rules::Awaited server::Shared server::Served table::Outcome plan::Judged board::file::Got',
    'what is next': 'files::NextServe files::NextLoad files::NextStore',
    'a number of its own kind': 'field::EntryVersion field::Second',
    'taken, size, passing': 'server::Fed server::lines::Turned',
    'stop of a reader': 'field::stop_number statistics::stop listing::stop request_reader::stop_options request_reader::stop_args reply_reader::read::stop',
    'eight bytes read': 'field::read_version field::read_second',
    'eight bytes written': 'field::put::put_version field::put::put_second',
    'constant of a kind': 'field::most field::top field::refusal field::put::greatest field::Kind::most field::Kind::top field::Kind::refusal field::Kind::greatest',
    'is a digit': 'decimal::is_digit hexadecimal::is_digit',
    'are digits': 'decimal::are_digits hexadecimal::are_digits',
    'value of a digit': 'hexadecimal::value field_cases::digit',
    'bytes of digits': 'hexadecimal::decode field_cases::decode',
    'length of a number': 'field::put::number_len decimal::decimal_len',
    'wide': 'decimal::wide table::number::wide',
    'same bytes': 'statistics::same table::same_key',
    'the lesser': 'hexadecimal::least order::lesser table::key_order::lesser table::number::capped',
    'zeros': 'field_cases::buffer field_cases::large_buffer stored::lines::room stored::memory board::arguments::buffer board::file::large_buffer board::keep::room '
             'board::memory board::serve::output',
    'number read of bytes': 'table::number::get32 table::number::get64 hexadecimal::number',
    'number written as bytes': 'table::number::put32 table::number::put64',
    'statistics of a list': 'statistics::of_list statistics::Statistics::from exports::given::statistics',
    'part of a message': 'message::Request::name_in message::Request::key_in message::Request::value_in message::Reply::value_in message::Reply::text_in',
    'body of a status': 'rules::pick rules::of_two rules::of_three',
    'code of a bulk message': 'reply_writer::listed::bulk_code exports::given::bulk_code',
    'header of a reply': 'reply_writer::counted::put_counted reply_writer::listed::put_head reply_writer::write::put_message',
    'judge, measure, write': 'reply_writer::counted::write_counted reply_writer::listed::write_head reply_writer::write::write_message request_writer::write_request',
    'judge, then another writer': 'reply_writer::write_statistics reply_writer::write_entries reply_writer::write_bulk_head',
    'an entry written': 'listing::put::put_entry server::bulk::put_entry',
    'entries written': 'listing::put::put_all server::bulk::put_entries',
    'arguments written': 'request_writer::write::put_keyed_if request_writer::write::put_writes request_writer::write::put_writes_if',
    'written where it is sent': 'request_writer::write::put_bytes request_writer::write::put_count request_writer::write::put_entry',
    'read where it is sent': 'request_reader::read_part request_reader::read_int request_reader::read_entry',
    'body that is a part': 'reply_reader::read::read_value reply_reader::read::read_text',
    'bytes of an entry': 'table::key_at table::value_at',
    'number of an entry': 'table::version_at table::deadline_at',
    'number of a header': 'table::latest table::last',
    'bytes of a row': 'table::rows::key table::rows::value table::key_order::key_of',
    'bytes moved by one': 'table::rows::turn table::key_order::insert table::key_order::remove files::buffer::move_down',
    'a reply told': 'exports::tell::reply exports::tell::statistics exports::tell::entries',
    'an answer as a number': 'exports::tell::sent exports::tell::shared exports::tell::outcome exports::tell::done',
    'an export that tells numbers [C]': 'exports::fq_read_request exports::fq_read_reply exports::fq_next_entry exports::fq_same_key exports::fq_serve exports::fq_serve_stream '
                                        'exports::fq_serve_lines',
    'the statistic of a place': 'statistics::read_one statistics::put::put_one',
    'a call told': 'exports::calls::serve exports::calls::serve_stream',
    'a line loaded': 'stored::load_head stored::load_line',
    'a turn': 'board::serve::turn board::keep::turn',
    'turns to the end': 'board::serve::serve_file board::keep::build',
    'how turns end': 'board::serve::is_done board::keep::is_stored board::keep::is_loaded',
    'a table loaded': 'board::keep::load_stored board::keep::load_file',
    'a field told': 'field_cases::tell_number field_cases::tell_version field_cases::tell_span',
    'what failed': 'board::say::no_requests board::say::unread board::say::unwritten board::say::no_table board::say::no_stored board::say::unlisted board::say::no_room '
                   'board::say::not_stored',
    'a sentence': 'board::say::wrong board::say::closed',
}

# The groups of enums: a struct of such a name, in an Option, is none of them.
ENUMS = {'answer of a reader', 'a value or none', 'a value or a refusal', 'what is next'}

# Names of variants that say that there is no value.
NONE = {'Refused', 'Failed', 'More', 'NotAllowed', 'Astray', 'Invalid', 'Unknown', 'Bad', 'Absent', 'Broken'}


def text_of(path):
    with open(path, encoding='utf-8') as file:
        return file.read()


def blanked(text, texts):
    """A source without its comments, each as many blanks, and where asked without what stands in quotes."""
    def blank(one):
        word = one[0]
        if word.startswith('//'):
            return ' ' * len(word)
        at = word.index(word[-1]) + 1
        return word[:at] + re.sub(r'[^\n]', '_', word[at:-1]) + word[-1] if texts else word
    return re.sub(r'//[^\n]*|b?"(?:[^"\\]|\\.)*"|b?\'(?:[^\'\\\n]|\\.)\'', blank, text, flags=re.S)


def closed(text, at):
    """The place behind the bracket that closes the one at a place."""
    depth = 0
    for i in range(at, len(text)):
        depth += (text[i] in '([{') - (text[i] in ')]}')
        if depth == 0:
            return i + 1
    sys.exit(f'no end of {text[at:at + 60]!r}')


def split(text, mark):
    """The parts of a text between marks that stand in no bracket."""
    parts, depth = [''], 0
    for letter in text:
        depth += (letter in '([{') - (letter in ')]}')
        if letter == mark and depth == 0:
            parts.append('')
        else:
            parts[-1] += letter
    return [' '.join(part.split()) for part in parts if part.strip()]


def generics(text, at):
    """The place behind the parameters in angle brackets at a place, if they stand there."""
    depth = 0
    while text[at] == '<' or depth:
        depth += (text[at] == '<') - (text[at] == '>' and text[at - 1] != '-')
        at += 1
    return at


def sources():
    """The functions and the types of all crates."""
    functions, types = [], []
    for path in sorted(glob.glob('crates/*/src/**/*.rt', recursive=True)):
        code, plain = blanked(text_of(path), False), blanked(text_of(path), True)
        crate = path.split('/')[1]
        module = [crate] + [part for part in os.path.relpath(path, f'crates/{crate}/src')[:-3].split('/') if part not in ('lib', 'main', 'mod')]
        imports = ' '.join(code.split('fn ', 1)[0].split())
        inside = [(one.start(), closed(plain, one.end() - 1), one[1][generics(one[1], 0):].strip()) for one in re.finditer(r'^impl\b([^{]*)\{', plain, re.M)]
        for one in re.finditer(r'\b(enum|struct) (\w+)[^;{(]*', plain):
            types.append(Type(crate, '::'.join(module + [one[2]]), one[1], code[one.end() + 1:closed(plain, one.end()) - 1] if plain[one.end()] != ';' else ''))
        for one in re.finditer(r'(extern "_" )?fn (\w+)(?=[<(])', plain):
            at = generics(plain, one.end())
            end = closed(plain, at)
            params = [tuple(part.strip() for part in (param + ':').split(':', 1)) for param in split(code[at + 1:end - 1], ',')]
            params = [(name.removeprefix('mut '), kind.rstrip(':').strip()) for name, kind in params]
            at = re.compile(r'\s*(?:->(?:\[[^\]]*\]|[^{;\[])*?)?\s*(?=\{|;|\b(?:requires|ensures|where|decreases)\b)').match(plain, end).end()
            result, clauses = code[end:at].replace('->', '').strip(), []
            if where := re.compile(r'where\b[^{;]*?(?=\{|;|\b(?:requires|ensures|decreases)\b)').match(plain, at):
                at = where.end()
            while clause := re.compile(r'\s*(requires|ensures|decreases)\b[^{]*').match(plain, at):
                at = closed(plain, clause.end())
                clauses.append((clause[1], ' '.join(code[clause.end() + 1:at - 1].split())))
            start = plain.find('{', at)
            if plain[at:start].strip():  # a function of a trait, without a body
                continue
            owner = next((kind for first, last, kind in inside if first < one.start() < last), '')
            name = '::'.join(module + ([re.sub(r'<.*', '', owner.split(' for ')[-1]).strip()] if owner else []) + [one[2]])
            functions.append(Function(crate, name, params, result, clauses, code[start:closed(plain, start)], bool(one[1]), owner, imports))
    return functions, types


FUNCTIONS, TYPES = sources()


def loops(body):
    """The loops of a body, each with its condition and what it does."""
    for one in re.finditer(r'\b(while|loop)\b([^{;]*)\{', body):
        yield one[2].strip(), body[one.end() - 1:closed(body, one.end() - 1)]


def steps(body):
    """What a loop steps by hand: each name with how it is stepped."""
    for one in re.finditer(r'\b(\w+) (?:[+-]= ([^;]+)|= \1 [+-] ([^;]+));', body):
        yield one[1], one[2] or one[3]


def variants(body):
    return [(one[1], one[2] or '') for one in re.finditer(r'^\s*(\w+)\s*(\([^\n]*\)|\{[^}]*\})?,', body, re.M)]


def arms(body):
    """The arms of the matches of a body, each match by itself."""
    for one in re.finditer(r'\bmatch\b[^{;]*\{', body):
        text = body[one.end():closed(body, one.end() - 1) - 1]
        yield re.findall(r'^\s*([^\n]*?) => (?:\{\s*)?([^\n]*)', text, re.M)


def value_or_none(kind):
    """Has an enum the shape of an option or a result: a value in one variant, and in another none or a refusal?"""
    names = variants(kind.body)
    carried = [name for name, value in names if value]
    small = len(names) <= 3 and carried and (len(carried) < len(names) or NONE & set(carried))
    return kind.sort == 'enum' and bool(small or NONE & {name for name, _ in names})


def numbers_given():
    """Calls that hand a refusal over as a number, by the functions that take one."""
    takers = {function.name.split('::')[-1]: [i for i, (name, kind) in enumerate(function.params) if (name, kind) in (('refusal', 'u8'), ('k', 'u8'))] for function in FUNCTIONS}
    for function in FUNCTIONS:
        for one in re.finditer(r'\b(\w+)\(', function.body):
            given = split(function.body[one.end():closed(function.body, one.end() - 1) - 1], ',')
            if any(i < len(given) and given[i].isdigit() for i in takers.get(one[1], ())):
                yield function


def point_1():
    for kind in TYPES:
        if value_or_none(kind):
            yield 'own enum', kind.name
        if kind.sort == 'struct' and re.search(r': bool\b', kind.body) and len(kind.body.split(',')) > 2:
            yield 'flag beside', kind.name
        if kind.sort == 'struct' and re.search(r'\b(op|status|version): u8\b', kind.body):
            yield 'kind by number', kind.name
    for function in FUNCTIONS:
        params = [f'{name}: {kind}' for name, kind in function.params]
        if {'sent: bool', 'given: bool'} & set(params):
            yield 'flag beside', function
        if any(re.fullmatch(r'(op|status|version|code): u8', param) for param in params) or function.result == 'u8' and re.search(r'code|status', function.name):
            yield 'kind by number', function
        elif re.search(r'\b(op|code)(\(\w+\))? [!=]= 0x|0x\w\w == code', function.body):
            yield 'kind by number', function
        if any(re.fullmatch(r'(refusal|k|number): u(8|16)', param) for param in params) or function.name.endswith('::refusal') and function.result.startswith('u'):
            yield 'refusal by number', function
        elif re.search(r'Refused\(\d+\)|Refused\(k\) => k ==|^ *return 1[26];', function.body, re.M):
            yield 'refusal by number', function
        if any(re.search(r'\bhead_count\b|\bheader_number\b', text) for _, text in function.clauses):
            yield 'kind by number', function
    for function in numbers_given():
        yield 'refusal by number', function


def point_1b():
    """The own enums that functions answer, by the results of all functions, and the lines that name a refusal, an operation, a status or a version as a number."""
    for kind in TYPES:
        word = kind.name.split('::')[-1]
        answered = [function for function in FUNCTIONS if re.fullmatch(rf'(?:\w+::)*{word}', function.result)
                    and (function.crate == kind.crate or re.search(rf'\buse {kind.crate}::[^;]*\b{word}\b', function.imports))]
        if kind.sort == 'enum' and answered:
            bare = {not value for _, value in variants(kind.body)}
            yield 'answered, all variants bare' if bare == {True} else 'answered, some variants carry a value', kind.name
    for path in sorted(glob.glob('crates/*/src/**/*.rt', recursive=True)):
        for number, line in enumerate(blanked(text_of(path), False).splitlines(), 1):
            if re.search(r'Refused\((\d+|u8|u16)\)|\b(op|status|version|code|refusal|k): u(8|16)\b', line):
                yield 'line', f'{path}:{number}'


def point_2():
    stand = {item.name: item for item in FUNCTIONS + TYPES}
    for group, names in TWINS.items():
        left = [name for name in names.split() if name in stand and not (group in ENUMS and stand[name].sort == 'struct')]
        for name in left if len(left) > 1 else []:
            yield group, name


def shape(body):
    """The tokens of a body, with a letter in place of each name, number and text."""
    words = 'let mut if else while loop for in match return as true false self Self break continue const'.split()
    tokens = re.findall(r'b?"(?:[^"\\]|\\.)*"|b?\'[^\']\'|\d\w*|[A-Za-z_]\w*|::|=>|[=!<>+-]=|&&|\|\||\S', body)
    kinds = [token if token in words else 'N' if token[0].isdigit() else 'S' if token[-1] in '"\'' else 'I' if re.match(r'\w', token) else token for token in tokens]
    return re.sub(r'(?:I :: )+I', 'P', ' '.join(kinds)).split()


def point_2b():
    """Functions whose bodies have the same tokens but for names, numbers and texts, or nearly so, and enums of the same variants, in groups."""
    leaders = {}

    def leader(name):
        while leaders.setdefault(name, name) != name:
            name = leaders[name]
        return name

    shapes = [(function.name, shape(function.body)) for function in FUNCTIONS]
    for (one, a), (other, b) in itertools.combinations(shapes, 2):
        least, most = sorted((len(a), len(b)))
        if a == b and least >= 14 or least >= 24 and least / most > 0.8 and len(set(a) ^ set(b)) < 4 and difflib.SequenceMatcher(None, a, b, autojunk=False).ratio() >= 0.88:
            leaders[leader(other)] = leader(one)
    enums = [(kind.name, sorted(bool(value) for _, value in variants(kind.body))) for kind in TYPES if value_or_none(kind)]
    for (one, a), (other, b) in itertools.combinations(enums, 2):
        if a == b and len(a) < 4:
            leaders[leader(other)] = leader(one)
    for name in list(leaders):
        yield f'as {leader(name)}', name


def point_3():
    for function in FUNCTIONS:
        for condition, body in loops(function.body):
            stepped = dict(steps(body))
            if any(name in re.findall(r'\w+', condition) and step.isdigit() or re.search(rf'\[[^\]]*\b{name}\b[^\]]*\]', body) and step.isdigit() for name, step in stepped.items()):
                yield 'index', function
            elif any(step.isdigit() for step in stepped.values()):
                yield 'count', function
            elif set(stepped) & set(re.findall(r'\w+', condition)):
                yield 'blocks', function


def point_3b():
    """The loops by the lines that begin them, and by their invariants in proofs/."""
    for path in sorted(glob.glob('crates/*/src/**/*.rt', recursive=True)):
        for number, line in enumerate(blanked(text_of(path), True).splitlines(), 1):
            if re.search(r'^\s*(?:while\b|loop\b)', line):
                yield 'line', f'{path}:{number}'
    for path in sorted(glob.glob('crates/*/proofs/**/Invariants.antt', recursive=True)):
        crate, _, *places, _ = path.split('/')[1:]
        yield 'invariants', '::'.join([crate] + places)


COMPARED = r'[\w)]\.0 (?:[<>]=?|[!=]=) (?!0\b)|(?:[<>]=?|[!=]=) [\w:]+(?:\([^()]*\))?\.0\b'
RULES_4 = {
    'equality': r'if (\w+)\[(\w+)\] != (\w+)\[\2\]',
    'order': r'if (\S+) != (\S+) \{\s*return \1 < \2;',
    'order of a number in a type': COMPARED,
    'lesser or greater': r'if (\w+) <=? ([\w.]+)(?: as u64)? \{\s*(?:return )?\1\b[^;}]*;?\s*\}(?:\s*else \{)?\s*\2\s*\}|if (\w+)\.0 < (\w+)\.0 \{\s*return',
    'copy in a loop': r'while [^{]*\{(?:[^{}]|\{[^{}]*\})*?\b\w+\[[^\]]+\] = (?:\w+\[[^\]]+\]|0|i as u8);',
    'struct field by field': r'\b(\w+): (\w+)\.\1,(?:[^{}]|\{[^{}]*\})*?\b(\w+): \2\.\3,',
    'numbers in bytes': r'\* 256\b|/ 256\b|/ 16777216|0x1_0000_0000',
    'list to struct or back': r'\w+: \w+\[\d\],\s*\w+: \w+\[\d\]|(?:= |&|\{\s*)\[(?=[^\[\]]*[a-z]\.\w+[^\[\]]*,[^\[\]]*[a-z]\.\w+)[^\[\]]*\]',
    'digits': r"\b0x(?:30|39|57|61)\b|b'[0a]'",
    'narrowing': r'\bas u8\b',
    'printing': r'\be?print!|write_all\(|b"(?:refused |bad )|\b(?:say|tell)\(\s*rt\b',
}


# Conversions that no text tells apart from other functions.
READ_4 = {'server::act::asked_by', 'field::SpanRead::length', 'listing::ended'}


def point_4():
    for function in FUNCTIONS:
        for rule, pattern in RULES_4.items():
            if re.search(pattern, function.body):
                yield rule, function
        if re.match(r'(?:From|TryFrom|Display|PartialEq|PartialOrd|Ord)\b', function.inside):
            continue
        pairs = [one for match in arms(function.body) for one in match]
        to = [one for one in pairs if re.match(r'\w+::', one[0]) and re.match(r'(?:0x[0-9a-f_]+|\d+|k as u64|256 \+ .*),', one[1])]
        back = [one for one in pairs if re.match(r'0x|\d', one[0]) and re.match(r'(?:\w+::\w+\()?Operation::', one[1])]
        if len(to) > 2 or len(back) > 2 or 'k as u64,' in [one[1] for one in to]:
            yield 'enum to number or back', function
        if function.params and [kind for _, kind in function.params] == ['bool'] and function.result.startswith('u') or function.name.endswith('::wide'):
            yield 'number of a flag or of a byte', function
        if function.name in READ_4:
            yield 'struct or answer to another', function


def fact(text, params, imports):
    """A fact with the kinds of its parameters in place of their names; of one by a definition of its own, the definition and its module."""
    while text.startswith('(') and closed(text, 0) == len(text):
        text = text[1:-1].strip()
    name = re.match(r'(?:\w+\.)?([A-Z]\w*) ', text)
    if name:
        module = re.search(rf'use Rattle\.([\w.]+)\.\{{[^}}]*\b{name[1]}\b', imports)
        return f'{module[1] + "." if module else ""}{name[1]} ..'
    kinds = {name: re.sub(r'[&\s]|mut\b', '', kind) for name, kind in params}
    return re.sub(r"\b([a-z]\w*)(?:\.(?:now|old))?(?![\w.'])", lambda one: kinds.get(one[1], one[1]), text)


def point_5():
    told = collections.defaultdict(set)
    for function in FUNCTIONS:
        for sort, text in function.clauses:
            for part in split(text, '×') if sort == 'requires' else split(text, '→')[:-1]:
                if not re.match(r'\(?result\b|[^→]* : ', part):
                    told[fact(part, function.params, function.imports)].add(function.name)
    for text, names in sorted(told.items(), key=lambda one: -len(one[1])):
        if len(names) > 2 and not re.fullmatch(r'(usize|u64) [≤<] (usize|u64)', text):
            yield 'fact', f'`{text}` in {len(names)}: {" ".join(sorted(names))}'
    for crate in sorted({function.crate for function in FUNCTIONS}):
        has = collections.defaultdict(set)
        for function in FUNCTIONS:
            if function.crate == crate:
                for name, kind in function.params:
                    if kind:
                        has[f'{name}: {kind}'].add(function.name)
        pairs = {frozenset((a, b)) for a, b in itertools.combinations(sorted(has), 2) if len(has[a] & has[b]) > 2 and len(has[a] & has[b]) / len(has[a] | has[b]) >= 0.6}
        groups, grown = set(), {pair for pair in pairs}
        while grown:
            wider = {group | {one} for group in grown for pair in pairs for one in pair - group if all(frozenset((one, other)) in pairs for other in group)}
            groups |= {group for group in grown if not any(group < other for other in wider)}
            grown = wider
        for group in sorted(groups, key=sorted):
            names = set.intersection(*(has[one] for one in group))
            if len(names) > 2:
                yield 'parameters', f'({", ".join(sorted(group))}) in {len(names)}: {" ".join(sorted(names))}'


def point_6():
    for kind in TYPES:
        if kind.sort == 'struct' and re.search(r'\[\w+; \d+\]', kind.body) and ': usize' in kind.body:
            yield 'array and length', kind.name
    for function in FUNCTIONS:
        held = re.findall(r'let mut (\w+)(?:: [^=]+)? = (?:\[[^;\]]+; \d+\]|(?:\w+::)*(?:buffer|large_buffer|room|output|memory)\(\))', function.body)
        if any(re.search(rf'&(?:mut )?{name}\[0?\.\.\w|\b{name}\[\.\.\w|&{name}, (?:0, )?[a-z]\w*\)', function.body) for name in held) or re.search(r'\bpart\(\w+, 0, \w+\)', function.body):
            yield 'array and length', function
        params = [name for name, _ in function.params]
        if 'numbers' in params and {'bytes', 'values', 'i'} & set(params) or re.search(r'[*/] 4\b', function.body) and 'numbers' in function.body:
            yield 'four numbers an entry', function
        if 'ends' in params or 'answer' in params and 'at' in params and 'input' not in params:
            yield 'three numbers a connection', function
        if any(re.search(r'/ 2\b', body) and 'low' in body for _, body in loops(function.body)):
            yield 'search by hand', function
        for _, body in loops(function.body):
            if any(re.search(rf'if (?:[^{{]*\[[^{{]*\] ==[^{{]*|\w+\([^{{]*\b{name}\b[^{{]*\)) \{{\s*return (?:\w+[:(]+)*{name}\)?;', body) for name, step in steps(body) if step == '1'):
                yield 'search by hand', function
        if re.search(r'Table::(?:PLACES|ORDER)\b', function.body):
            yield 'arena of indices', function


def point_7():
    answers = {kind.name.split('::')[-1] for kind in TYPES if value_or_none(kind)} | {'Ok', 'Err', 'Some', 'None'}
    for kind in TYPES:
        if re.search(r'::Next\w+$', kind.name):
            yield 'what is next, by value', kind.name
    for function in FUNCTIONS:
        for name, kind in function.params:
            if kind == 'bool' and re.search(rf'\bif !?{name}\b', function.body):
                yield 'switch by a flag', function
        for match in arms(function.body):
            kinds = {one[0] for one in match if one[0].split('::')[0].split('(')[0] not in answers}
            called = {one[1] for left, answer in match if left in kinds for one in re.finditer(r'^(?:return )?((?:\w+::)*[a-z_]\w*)[(!]', answer)}
            if len(called) > 1:
                yield 'a step an arm', function
            elif sum(left.startswith(('Form::', 'Shape::')) for left in kinds) > 1 or any(left == 'Form::Versioned' for left in kinds):
                yield 'a value an arm, by the form', function
        if len(re.findall(r'\bif [^{]*is_first\(', function.body)) > 1:
            yield 'chain of words', function
        for name, _ in function.params:
            if re.search(rf'\bif {name} == 0 \{{\s*(?:let|return)\b', function.body) and 'usize' in dict(function.params)[name]:
                yield 'switch by a number', function


def proof_files(pattern):
    return sorted(path for path in glob.glob('crates/*/proofs/**/*.antt', recursive=True) if re.search(pattern, path))


def point_8():
    """The answers of each crate, the texts that answers repeat, and the laws that nothing cites, worked cases aside. Whether the check finds an answer alone only the check tells."""
    laws = re.compile(r'/proofs/\w+\.antt$')
    for crate in sorted({path.split('/')[1] for path in proof_files('')}):
        answers = [text_of(path) for path in proof_files(rf'crates/{crate}/.*/Answers\.antt$')]
        lemmas = [text_of(path) for path in proof_files(rf'crates/{crate}/') if laws.search(path)]
        count = sum(len(re.findall(r'^pub ', text, re.M)) for text in answers)
        lines, law_lines = (sum(text.count('\n') for text in texts) for texts in (answers, lemmas))
        yield 'crate', f'{crate}: files of answers {len(answers)}, answers {count}, their lines {lines}, lines of laws {law_lines}'
    for path in proof_files(r'/Answers\.antt$'):
        for text, count in repeated(text_of(path)):
            yield 'repeated', f'{path}: {count} times {text[:80]}'
    texts = {path: text_of(path) for path in glob.glob('crates/*/**/*', recursive=True) + glob.glob('docs/*.md') + ['README.md']
             if path.endswith(('.rt', '.antt', '.md')) and '/out/' not in path and os.path.basename(path) != 'DESIGN-PASS.md'}
    words = {path: collections.Counter(re.findall(r'[^\s(){};,.:`]+', re.sub(r'--.*', '', text))) for path, text in texts.items()}
    cited = collections.Counter(name for names in words.values() for name in names)
    for path in (path for path in texts if laws.search(path) and not path.endswith('Cases.antt')):
        for indent, public, name in re.findall(r'^( {0,2})(?:unfoldable |abbrev )?(pub )?([^\s(){};,.`"-][^\s(){};,.`"]*) :', texts[path], re.M):
            clauses = len(re.findall(rf'^{indent}(?:(?:unfoldable |abbrev )?pub )?{re.escape(name)}(?= )', texts[path], re.M))
            if clauses > 1 and words[path][name] <= clauses and (not public or cited[name] == 1):
                yield 'not cited', f'{path}: {name}'


def repeated(text):
    """What stands twice or more in a file of answers, in brackets or behind `in`, at least 60 letters long."""
    return [one for one in collections.Counter(re.findall(r'\(let [^\n]{60,}? in [^\s()]+\)', text)).items() if one[1] > 1]


POINTS = {'1': point_1, '1b': point_1b, '2': point_2, '2b': point_2b, '3': point_3, '3b': point_3b, '4': point_4, '5': point_5, '6': point_6, '7': point_7, '8': point_8}


def places(point):
    """The places of a point, each once a rule."""
    seen = {}
    for rule, item in POINTS[point]():
        name = item if isinstance(item, str) else item.name + (' [C]' if item.is_export else '')
        seen.setdefault((rule, name), None)
    return list(seen)


def main():
    asked = sys.argv[1:2]
    if asked and asked[0] not in POINTS:
        sys.exit(__doc__)
    for point in asked or POINTS:
        found = places(point)
        if asked:
            for rule, name in found:
                print(f'{rule}: {name}')
        rules = collections.Counter(rule for rule, _ in found)
        if point == '8':
            sums = collections.Counter()
            for rule, text in found:
                sums.update({name: int(number) for name, number in re.findall(r'([a-z ]+) (\d+)', text)} if rule == 'crate' else {rule: 1})
            sums.setdefault('not cited', 0)
            print('point 8: ' + ', '.join(f'{name.strip()} {number}' for name, number in sums.items()))
        else:
            print(f'point {point}: {len({name for _, name in found})} places; ' + ', '.join(f'{rule} {count}' for rule, count in rules.items()))


main()
