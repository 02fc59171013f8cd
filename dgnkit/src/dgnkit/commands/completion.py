"""`dgnkit completion bash|zsh`: the script by which a shell completes the words of dgnkit."""

from __future__ import annotations

import argparse
from shlex import quote
from typing import TYPE_CHECKING, Dict, Iterator, List

from ..output import say_raw

if TYPE_CHECKING:
    from ..cli import Parser, Subparsers

ABOUT = """Prints a script that completes commands, options and their values. For bash: put
`eval "$(dgnkit completion bash)"` into ~/.bashrc. For zsh: save it as _dgnkit in a folder of $fpath."""

FILES = 'CSV DIR FILE OUT PAGE PATCH SCRIPT'.split()  # what values are called that are names of files

BASH = r"""# completes the words of dgnkit in bash
_dgnkit() {
    local word=${COMP_WORDS[COMP_CWORD]} before=${COMP_WORDS[COMP_CWORD-1]} options= values=
    if [ "$COMP_CWORD" = 1 ]; then
        COMPREPLY=($(compgen -W %s -- "$word"))
        return
    fi
    case ${COMP_WORDS[1]} in
%s
    esac
    case ${COMP_WORDS[1]}:$before in
%s
    esac
    case $word in
        -*) COMPREPLY=($(compgen -W "$options" -- "$word")) ;;
        *) if [ -n "$values" ]; then COMPREPLY=($(compgen -W "$values" -- "$word")); fi ;;
    esac
}
complete -o default -F _dgnkit dgnkit"""

ZSH = r"""#compdef dgnkit
# completes the words of dgnkit in zsh
_dgnkit() {
    local -a commands=(
%s
    )
    if (( CURRENT == 2 )); then
        _describe command commands
        return
    fi
    case $words[2] in
%s
    esac
}
_dgnkit "$@"
"""


def register(words: Subparsers) -> None:
    parser = words.add_parser('completion', help='print the completion for a shell', description=ABOUT)
    parser.add_argument('shell', choices=('bash', 'zsh'), help='the shell')
    parser.set_defaults(run=run)


def run(arguments: argparse.Namespace) -> int:
    from ..cli import module_names, parser_of

    parser = parser_of(module_names())
    (action,) = (it for it in parser._actions if isinstance(it, argparse._SubParsersAction))
    helps = {it.dest: it.help or '' for it in action._choices_actions}
    parsers: Dict[str, Parser] = dict(action.choices)
    say_raw(bash_of(parsers) if arguments.shell == 'bash' else zsh_of(parsers, helps).rstrip())
    return 0


def options_of(parser: Parser) -> Iterator[argparse.Action]:
    """The options of a command that are told."""
    return (it for it in parser._actions if it.option_strings and it.help is not argparse.SUPPRESS)


def bash_of(parsers: Dict[str, Parser]) -> str:
    """The script for bash: of each command its options, and of an option the values where these are few."""
    options, values = [], []
    for name, parser in parsers.items():
        told = list(options_of(parser))
        words = ' '.join(word for it in told for word in it.option_strings)
        options.append('        %s) options=%s ;;' % (name, quote(words)))
        for it in (it for it in told if it.choices):
            forms = '|'.join('%s:%s' % (name, word) for word in it.option_strings)
            values.append('        %s) values=%s ;;' % (forms, quote(' '.join(map(str, it.choices or ())))))
    values.append('        completion:completion) values="bash zsh" ;;')
    values.append('        help:help) values=%s ;;' % quote(' '.join(parsers)))
    return BASH % (quote(' '.join(parsers)), '\n'.join(options), '\n'.join(values))


def zsh_of(parsers: Dict[str, Parser], helps: Dict[str, str]) -> str:
    """The script for zsh, with what each command and option is for."""
    commands = ['        %s' % quote('%s:%s' % (name, helps[name])) for name in parsers]
    cases = []
    for name, parser in parsers.items():
        told: List[str] = [_zsh_option(it, word) for it in options_of(parser) for word in it.option_strings]
        files = "'*:command:(%s)'" % ' '.join(parsers) if name == 'help' else "'*:file:_files'"
        files = "'*:shell:(bash zsh)'" if name == 'completion' else files
        cases.append('        %s) _arguments %s %s ;;' % (name, ' '.join(told), files))
    return ZSH % ('\n'.join(commands), '\n'.join(cases))


def _zsh_option(action: argparse.Action, word: str) -> str:
    """An option as `_arguments` takes it: its word, what it is for, and a value where it has one."""
    said = (action.help or '').replace('[', '(').replace(']', ')').replace(':', ' -').replace('%%', '%')
    value = ''
    if action.choices:
        value = ':value:(%s)' % ' '.join(map(str, action.choices))
    elif action.nargs != 0:
        name = action.metavar if isinstance(action.metavar, str) else action.dest
        value = ':%s:%s' % (name, '_files' if name in FILES else ' ')
    return quote('*%s[%s]%s' % (word, said, value.replace("'", '')))
