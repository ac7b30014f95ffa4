#!/usr/bin/env python3
"""Makes capnp_view.html, the viewer as one file, of page.html, walk.js, the JavaScript package and some messages of the tests.

    build.py [--check] [PACKAGE [TO]]

PACKAGE is the folder of the package, ../bindings/js if it is left out, with its capnp_canonical.wasm. TO is the file that is written,
capnp_view.html in this folder if it is left out. --check writes nothing: it fails if TO isn't what would be written."""
import base64
import gzip
import hashlib
import pathlib
import re
import sys

HERE = pathlib.Path(__file__).resolve().parent
TESTS = HERE.parent / 'tests/library/rows'
# The modules of the package, each after those that it imports.
PACKAGE = 'library.js', 'answers.js', 'calls.js'
# What the page uses of them, and of walk.js.
CALLS = 'CanonicalError', 'canonicalizeFlat', 'check', 'frames', 'looksLike', 'segments', 'size', 'unpack', 'use', 'version', 'words'
WALK = 'Role', 'segmentsOf', 'walk'
EXAMPLES = [
    ('an address book, by capnp encode', 'messages', 'book'),
    ('the same in many segments', 'messages', 'book_in_segments'),
    ('a canonical message', 'messages', 'canonical'),
    ('a zero word at the end of a struct', 'messages', 'zero_word'),
    ('a capability', 'messages', 'capability'),
    ('a pointer out of its segment', 'messages', 'out_of_bounds'),
    ('a pointer that leads back', 'messages', 'cycle'),
    ('packed, of many segments', 'packed', 'friends'),
]
IMPORT = re.compile(r"(?ms)^import \{.*?\} from '[^']*';\n")
PACKED = re.compile(r"const packed = Uint8Array\.from\(atob\('([^']*)'\)")
# The parts of the page that its policy allows, by the marks of their hashes there.
ALLOWED = {'@SCRIPT@': re.compile(r'(?s)<script type="module">(.*?)</script>'), '@STYLE@': re.compile(r'(?s)<style>(.*?)</style>')}
EXPORTED_FROM = re.compile(r"(?m)^export (\*|\{.*\})( from '[^']*')?;\n")


def as_one(paths, names):
    """The modules as one function, and the names that it returns."""
    text = ''
    for path in paths:
        part = EXPORTED_FROM.sub('', IMPORT.sub('', path.read_text(encoding='utf-8')))
        text += re.sub(r'(?m)^export ', '', part)
    if re.search(r'(?m)^(import|export)\b', text):
        raise SystemExit(f'an import or export of {[path.name for path in paths]} has a form that this script doesn’t know')
    row = ', '.join(names)
    return f'const {{ {row} }} = await (async () => {{\n{text}\nreturn {{ {row} }};\n}})();\n'


def example(file, name):
    for line in (TESTS / f'{file}.txt').read_text(encoding='utf-8').splitlines():
        words = line.split(' ')
        if words[0] == name:
            return words[1]
    raise SystemExit(f'{file}.txt has no message {name}')


def compressed(module, to):
    """The module by gzip, in base64: as the page has it already if that is the same module, since versions of zlib differ."""
    found = PACKED.search(to.read_text(encoding='utf-8')) if to.is_file() else None
    if found and gzip.decompress(base64.b64decode(found[1])) == module:
        return found[1]
    return base64.b64encode(gzip.compress(module, 9, mtime=0)).decode()


def built(package, to):
    page = (HERE / 'page.html').read_text(encoding='utf-8')
    packed = compressed((package / 'capnp_canonical.wasm').read_bytes(), to)
    code = as_one([package / name for name in PACKAGE], CALLS) + as_one([HERE / 'walk.js'], WALK) + f'''const packed = Uint8Array.from(atob('{packed}'), (it) => it.charCodeAt(0));
use(await WebAssembly.compile(await new Response(new Blob([packed]).stream().pipeThrough(new DecompressionStream('gzip'))).arrayBuffer()));
'''
    rows = ''.join(f'  [{shown!r}, {example(file, name)!r}],\n' for shown, file, name in EXAMPLES)
    for mark, text in ('/*@MODULES@*/', code.replace('</script', '<\\/script')), ('/*@EXAMPLES@*/[]', f'[\n{rows}]'):
        if page.count(mark) != 1:
            raise SystemExit(f'page.html has {mark} {page.count(mark)} times')
        page = page.replace(mark, text)
    return with_hashes(page)


def with_hashes(page):
    """The page, with the hashes of its script and its style in its policy."""
    for mark, pattern in ALLOWED.items():
        parts = pattern.findall(page)
        if page.count(mark) != 1 or len(parts) != 1:
            raise SystemExit(f'page.html has {mark} {page.count(mark)} times, and {len(parts)} parts for it')
        page = page.replace(mark, 'sha256-' + base64.b64encode(hashlib.sha256(parts[0].encode()).digest()).decode())
    return page


def main():
    words = [it for it in sys.argv[1:] if it != '--check']
    package = pathlib.Path(words[0]) if words else HERE.parent / 'bindings/js'
    to = pathlib.Path(words[1]) if words[1:] else HERE / 'capnp_view.html'
    page = built(package, to)
    if '--check' in sys.argv:
        if to.read_text(encoding='utf-8') != page:
            raise SystemExit(f'{to.name} isn’t what build.py makes')
    else:
        to.write_text(page, encoding='utf-8')
        print(f'{to.name}: {len(page.encode()):,} bytes')


main()
