#!/usr/bin/env python3
"""Checks that the toolchain has the logic in which this repository is proved, and that generated/ and the pages name no other.

    toolchain.py

The file TOOLCHAIN names the logic and the kits of the toolchain that have proved the repository. Says which kit this is. Another
kit of the same logic may pass, since all proofs are checked again; another logic fails. The last line is
`N passed, M failed`."""
import pathlib
import re
import subprocess
import sys

TOP = pathlib.Path(__file__).resolve().parents[1]
PAGES = 'README.md', 'docs/PROVED.md', 'generated/ORIGIN'


def version():
    """The kit and the logic that `rt version` names, or what it says in their place."""
    try:
        run = subprocess.run(['rt', 'version'], stdin=subprocess.DEVNULL, stdout=subprocess.PIPE, encoding='utf-8', errors='replace')
    except OSError as error:
        return None, None, f'there is no toolchain: {error}'
    found = re.fullmatch(r'(\S+) logic ([0-9a-f]+)', run.stdout.strip())
    return (*found.groups(), '') if found and not run.returncode else (None, None, f'rt version says {run.stdout.strip()!r}, with status {run.returncode}')


def listed():
    """The logic and the kits of the file TOOLCHAIN."""
    lines = [it.partition(': ') for it in (TOP / 'TOOLCHAIN').read_text(encoding='utf-8').splitlines() if not it.startswith('#')]
    (logic,) = (value for name, _, value in lines if name == 'logic')
    return logic, [value for name, _, value in lines if name == 'kit']


def about_kit(logic, kits):
    """What there is to say about this machine's kit, and whether it will do."""
    kit, own, fault = version()
    if fault:
        return fault, False
    if own != logic:
        return (f'{kit} has the logic {own}, and this repository is proved in the logic {logic}. Use a kit of that logic: {", ".join(kits)}. Or move the '
                f'repository to {own}: write this logic and the kit into TOOLCHAIN and into {", ".join(PAGES[:2])}, run dev/test --anew, and write generated/ again'), False
    if kit in kits:
        return f'{kit} of the logic {logic}, with which this repository has been proved before', True
    return f'{kit} has the logic {logic}, but TOOLCHAIN does not list it: if all else passes, add the line `kit: {kit}` there', True


def about_page(page, logic, kits):
    """Which other logic or kit a page names, or that it names no logic; None if all is well."""
    text = (TOP / page).read_text(encoding='utf-8')
    logics = set(re.findall(r'\blogic:? `?([0-9a-f]{8,})', text))
    wrong = sorted(logics - {logic}) + sorted(set(re.findall(r'rattle-kit-\w+', text)) - set(kits))
    if wrong or not logics:
        return f'{page} names {", ".join(wrong) or "no logic"}, and TOOLCHAIN the logic {logic} and {", ".join(kits)}'
    return None


def main():
    logic, kits = listed()
    text, is_well = about_kit(logic, kits)
    wrong = [it for page in PAGES if (it := about_page(page, logic, kits))]
    print(text, *wrong, sep='\n')
    failed = len(wrong) + (not is_well)
    print(f'{1 + len(PAGES) - failed} passed, {failed} failed')
    return 1 if failed else 0


if __name__ == '__main__':
    sys.exit(main())
