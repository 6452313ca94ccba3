#!/usr/bin/env python3
"""Makes the man pages and the shell completion from the help: `manual.py man|board|completion`. The help of feyqoolad is host/src/usage.txt; that of board is read
from standard input."""
import re
import sys

TOP = __file__.rsplit('/', 2)[0]
VERSION = '1.0'


def parts():
    """The parts of the help by their names, in order."""
    with open(f'{TOP}/host/src/usage.txt', encoding='utf-8') as file:
        return dict(one.split('\n', 1) for one in ('\n' + file.read()).split('\n== ')[1:])


def verbatim(text):
    """Text as it is, for troff."""
    lines = (line.replace('\\', '\\e').replace('-', '\\-').replace("'", '\\(aq') for line in text.strip('\n').split('\n'))
    return '.EX\n' + ''.join(('\\&' if line[:1] in '.' and line else '') + line + '\n' for line in lines) + '.EE\n'


def page(name, what, sections):
    """A man page with these sections, each a heading and a text or more headings with texts."""
    out = f'.TH {name.upper()} 1 "" "Feyqoolad {VERSION}" "Feyqoolad"\n.SH NAME\n{name} \\- {what}\n'
    for heading, text in sections:
        out += f'.SH {heading}\n' if isinstance(text, str) else f'.SH {heading}\n'
        out += verbatim(text) if isinstance(text, str) else ''.join(f'.SS {one}\n{verbatim(words)}' for one, words in text)
    return out


def feyqoolad():
    texts = parts()
    first, _ = texts.pop('help'), texts.pop('version')
    what = first.split('\n', 1)[0].split(': ', 1)[1]
    return page('feyqoolad', what, [('SYNOPSIS', 'feyqoolad COMMAND [WORD ..] [OPTION ..]'), ('DESCRIPTION', first.split('\n', 2)[2]), ('COMMANDS', list(texts.items())),
                                    ('SEE ALSO', 'board(1), and USING.md and PROTOCOL.md in the folder of its documents')])


def board():
    text = sys.stdin.read()
    first, rest = text.split('\n', 1)
    return page('board', first.split(': ', 1)[1], [('SYNOPSIS', 'board COMMAND WORD ..'), ('DESCRIPTION', rest.split('\nMore is in ')[0]), ('SEE ALSO', 'feyqoolad(1)')])


COMPLETION = '''# Completes the words of feyqoolad and board in bash.
_feyqoolad() {{
    local word=${{COMP_WORDS[COMP_CWORD]}} command=${{COMP_WORDS[1]-}}
    COMPREPLY=()
    if [ "$COMP_CWORD" -eq 1 ]; then
        mapfile -t COMPREPLY < <(compgen -W '{commands} help --help --version' -- "$word")
        return
    fi
    case ${{COMP_WORDS[COMP_CWORD - 1]}} in
    --sync) mapfile -t COMPREPLY < <(compgen -W 'second always' -- "$word"); return ;;
    help) mapfile -t COMPREPLY < <(compgen -W '{commands}' -- "$word"); return ;;
    esac
    case $word in
    -*) ;;
    *) case $command in serve | show | sheet | decode) mapfile -t COMPREPLY < <(compgen -f -- "$word") ;; esac
       return ;;
    esac
    case $command in
{options}    esac
}}

_feyqoolad_board() {{
    local word=${{COMP_WORDS[COMP_CWORD]}}
    if [ "$COMP_CWORD" -eq 1 ]; then
        mapfile -t COMPREPLY < <(compgen -W 'serve sheet help --help --version' -- "$word")
    else
        mapfile -t COMPREPLY < <(compgen -f -- "$word")
    fi
}}
complete -F _feyqoolad feyqoolad
complete -F _feyqoolad_board board
'''


def completion():
    texts = {name: text for name, text in parts().items() if name not in ('help', 'version')}
    options = ''
    for name, text in texts.items():
        words = ' '.join(re.findall(r'^  (--[a-z-]+)', text, re.M) + ['--help'])
        options += f"    {name}) mapfile -t COMPREPLY < <(compgen -W '{words}' -- \"$word\") ;;\n"
    return COMPLETION.format(commands=' '.join(texts), options=options)


MADE = {'man': feyqoolad, 'board': board, 'completion': completion}
if sys.argv[1:] not in [[one] for one in MADE]:
    sys.exit('usage: manual.py man|board|completion')
print(MADE[sys.argv[1]](), end='')
