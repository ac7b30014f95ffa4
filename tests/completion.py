#!/usr/bin/env python3
"""Checks that the same commands and options of capnp_canon are in `--help` (crates/capnp_canon/src/texts.rt), the completion
for bash and zsh (share/), the man page and docs/PROGRAM.md. If bash is installed, also tests its completion.

    completion.py

Prints what differs. The last line is `N passed, M failed`."""
import pathlib
import re
import shutil
import subprocess
import sys

TOP = pathlib.Path(__file__).resolve().parents[1]
COMMANDS = {'canon': {'--flat', '--pack', '--hex', '--at'}, 'check': {'--flat', '--quiet'}, 'size': {'--flat', '--at'},
            'digest': {'--flat', '--check', '--quiet', '--at'},
            'validate': {'--flat', '--quiet', '--schema'}, 'show': {'--flat', '--json', '--values', '--color', '--depth', '--bytes', '--at'}, 'diff': {'--flat', '--quiet'}}
LETTERS = {'-h', '-V', '-c'}


def file(name):
    return (TOP / name).read_text(encoding='utf-8')


def words(text):
    """The options that a text names, long ones and letters."""
    found = set(re.findall(r'(?<![\w-])(--[a-z][a-z-]*[a-z]|-[a-zA-Z])\b', text))
    return {it for it in found if it.startswith('--') or it in LETTERS}


def of_help():
    """The commands and the options of `--help`: the words at the start of its lines."""
    text = re.search(r'pub const HELP: &str =\s*"(.*?)";', file('crates/capnp_canon/src/texts.rt'), re.S)[1]
    lines = re.findall(r'^ *((?:-[a-zA-Z], *)?(?:--)?[a-z][a-z-]*)(?: (?:N|PATH|FILE:TYPE))?  +\S', text, re.M)
    found = {word for line in lines for word in re.split(', *', line.strip())}
    return {it for it in found if not it.startswith('-')}, {it for it in found if it.startswith('-')}


def offered(*line):
    """What bash offers as the last word of a line."""
    script = 'source "$1"; shift; COMP_WORDS=(capnp_canon "$@"); COMP_CWORD=$#; _capnp_canon; printf "%s\\n" "${COMPREPLY[@]}"'
    run = subprocess.run(['bash', '-c', script, 'bash', str(TOP / 'share/capnp_canon.bash'), *line], stdout=subprocess.PIPE, text=True)
    return set(run.stdout.split())


def facts():
    commands, options = of_help()
    long = options - LETTERS
    yield 'the commands of --help', commands == set(COMMANDS)
    yield 'the letters of --help', options - long == LETTERS
    yield 'the options of each command', set.union(*COMMANDS.values()) <= long
    zsh = file('share/_capnp_canon')
    yield 'the options for zsh', words(zsh) == options
    yield 'the commands for zsh', set(re.findall(r'(\w+)\\:', zsh)) == commands
    yield 'the options of the man page', words(file('share/capnp_canon.1').replace('\\-', '-')) == options
    page = file('docs/PROGRAM.md').partition('### At a shell')[0]
    yield 'the options of docs/PROGRAM.md', words(page) == options
    for command in commands:
        yield f'{command} in the man page', re.search(rf'^\.B {command}$', file('share/capnp_canon.1'), re.M)
    if not shutil.which('bash'):
        print('skipped: the completion for bash: no bash')
        return
    common = long - set.union(*COMMANDS.values())
    yield 'the first word for bash', offered('') == commands
    yield 'the first option for bash', offered('-') == long
    for command, own in COMMANDS.items():
        yield f'the options of {command} for bash', offered(command, '--') == common | own
    yield 'the start of an option for bash', offered('canon', '--fr') == {'--from-flat'}
    yield 'an option after a file for bash', offered('canon', 'file', '--fr') == {'--from-flat'}
    yield 'no option after -- for bash', offered('canon', '--', '--fr') == set()
    yield 'the value of --words for bash', offered('canon', '--words', '') == {'none'}
    yield 'the value of --nesting for bash', offered('canon', '--nesting', '') == set()
    yield 'the value of --depth for bash', offered('show', '--depth', '') == set()
    yield 'the value of --bytes for bash', offered('show', '--bytes', '') == {'none'}


def main():
    found = list(facts())
    failed = [what for what, holds in found if not holds]
    for what in failed:
        print(f'differs: {what}')
    print(f'{len(found) - len(failed)} passed, {len(failed)} failed')
    return 1 if failed else 0


sys.exit(main())
