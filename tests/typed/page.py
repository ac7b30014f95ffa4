#!/usr/bin/env python3
"""Types the commands of docs/TYPED_RUST.md and docs/TYPED_C.md, each in a clone of the last commit, without a command `rt`, and
looks at what the programs print: the order, and the SHA-256 of the type's id and the canonical words, which `capnp` and hashlib
make here. Each page has five commands, none of them two in one.

    page.py [rust] [c]

Needs git, make, cc, capnp and, for Rust, cargo; no network. The last line is `N passed, M failed`."""
import hashlib
import os
import pathlib
import re
import shutil
import subprocess
import sys
import tempfile

TOP = pathlib.Path(__file__).resolve().parents[2]
PAGES = {'rust': 'docs/TYPED_RUST.md', 'c': 'docs/TYPED_C.md'}


def block(text, kind):
    """The first block of a kind in a text."""
    return re.search(rf'^```{kind}\n(.*?)^```$', text, re.M | re.S)[1]


def count_of(commands):
    """How many commands these lines are. What `cat` is given up to the line END is one with it, and `&&`, `;` and `|` part two."""
    outside = re.sub(r"<<'END'\n.*?^END$", '', commands, flags=re.M | re.S)
    return sum(len(re.split(r'&&|;|\|', line.split(' #')[0])) for line in outside.splitlines())


def expected(schema):
    """What a program prints: the order, and the digest."""
    compiled = subprocess.run(['capnp', 'compile', '-o-', schema], stdout=subprocess.PIPE, check=True).stdout
    include = next(it for it in ('/usr/include', '/usr/local/include', '/opt/homebrew/include') if pathlib.Path(it, 'capnp/schema.capnp').is_file())
    request = subprocess.run(['capnp', 'decode', f'{include}/capnp/schema.capnp', 'CodeGeneratorRequest'], input=compiled, stdout=subprocess.PIPE, check=True).stdout
    number = int(re.search(rb'id = (\d+),\s*displayName = "[^"]*:Order"', request)[1])
    words = subprocess.run(['capnp', 'convert', 'text:canonical', schema, 'Order'], input=b'(id = 7, customer = "Alice")', stdout=subprocess.PIPE, check=True).stdout
    return ['7: Alice', hashlib.sha256(number.to_bytes(8, 'little') + words).hexdigest()]


def without(command):
    """The path without the folders that have a command. What else these have is in none of the pages."""
    return os.pathsep.join(it for it in os.environ['PATH'].split(os.pathsep) if not shutil.which(command, path=it))


def typed(name, folder):
    """Types the commands of a page in a clone. Returns whether the program prints what is expected, and what went wrong."""
    clone = folder / name / 'capnp_layout'
    subprocess.run(['git', 'clone', '-q', str(TOP), str(clone)], check=True)
    page = (TOP / PAGES[name]).read_text(encoding='utf-8')
    (clone / 'shop.capnp').write_text(block(page, 'capnp'), encoding='utf-8')
    commands = block(page, 'sh')
    environment = {**os.environ, 'PATH': without('rt')}
    environment.pop('CARGO_TARGET_DIR', None)
    run = subprocess.run(['sh', '-e'], input=commands, cwd=clone, env=environment, stdout=subprocess.PIPE, stderr=subprocess.STDOUT, encoding='utf-8', errors='replace')
    said = run.stdout.splitlines()
    count = count_of(commands)
    return run.returncode == 0 and count == 5 and said[-2:] == expected(str(clone / 'shop.capnp')), '\n'.join([*said[-30:], f'{count} commands'])


def main(names):
    passed = failed = 0
    with tempfile.TemporaryDirectory() as folder:
        for name in names or PAGES:
            if name == 'rust' and not shutil.which('cargo'):
                print('rust: skipped, no cargo')
                continue
            fine, said = typed(name, pathlib.Path(folder))
            passed, failed = passed + fine, failed + (not fine)
            print(f'{"ok" if fine else "FAILED"}: {PAGES[name]}' + ('' if fine else f'\n{said}'), flush=True)
    print(f'{passed} passed, {failed} failed')
    return 0 if passed and not failed else 1


sys.exit(main(sys.argv[1:]))
