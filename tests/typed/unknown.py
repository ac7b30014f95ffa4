"""A request of a later schema compiler: declarations, fields, types and values of kinds that the generators don't know."""
import pathlib
import re
import subprocess

from schema import described

SCHEMA = '''@0xf0f1f2f3f4f5f6b1;
struct Later {
  known @0 :UInt8;
  type @1 :UInt16;
  list @2 :List(UInt32);
  group :group { inner @3 :UInt8; }
  value @4 :Int8;
  text @5 :Text = "known";
  union { none @6 :Void; member @7 :Int16; }
}
annotation note(*) :Text;
const number :UInt64 = 7;
'''
# What is written, and what takes the place of that.
CHANGED = (
    (r'type = \((uint16|int16) = void\), defaultValue = \(\1 = 0\)', 'type = (later = void), defaultValue = (later = void)'),
    # `capnp encode` takes no pointer that `capnp decode` doesn't look into
    (r'elementType = \(uint32 = void\)\)\), defaultValue = \(list = <opaque pointer>\)', 'elementType = (later = void)))'),
    (r'group = \(typeId = \d+\)', 'later = void'),
    (r'defaultValue = \(int8 = 0\)', 'defaultValue = (later = void)'),
    (r'annotation = \([^()]*\([^()]*\)[^()]*\)', 'later = void'),
    (r'value = \(uint64 = 7\)', 'value = (later = void)'),
)


def later(text, name):
    """`schema.capnp` with a further member in the union of one of its structs."""
    start = text.index(f'\nstruct {name} {{')
    end = text.index('\n}', start)
    own = re.sub(r'\n  struct \w+ \{.*?\n  \}', '', text[start:end], flags=re.S)
    number = 1 + max(int(it) for it in re.findall(r'@(\d+)', re.sub('#.*', '', own)))
    at = text.index('\n  union {', start) + len('\n  union {')
    return f'{text[:at]}\n    later @{number} :Void;{text[at:]}'


def request(folder):
    """The request, for the file `later.capnp`."""
    (folder / 'later.capnp').write_text(SCHEMA, encoding='utf-8')
    schema = pathlib.Path(described()).read_text(encoding='utf-8')
    for name in 'Node', 'Field', 'Type', 'Value':
        schema = later(schema, name)
    (folder / 'schema.capnp').write_text(schema.replace('$Cxx', '#'), encoding='utf-8')
    asked = subprocess.run(['capnp', 'compile', f'--src-prefix={folder}', '-o-', folder / 'later.capnp'], check=True, stdout=subprocess.PIPE).stdout
    text = subprocess.run(['capnp', 'decode', '--short', described(), 'CodeGeneratorRequest'], input=asked, check=True, stdout=subprocess.PIPE).stdout.decode()
    for old, new in CHANGED:
        text, count = re.subn(old, new, text)
        if not count:
            raise SystemExit(f'unknown.py: no {old} in the request')
    return subprocess.run(['capnp', 'encode', folder / 'schema.capnp', 'CodeGeneratorRequest'], input=text.encode(), check=True, stdout=subprocess.PIPE).stdout


def generate(generator, folder):
    """Runs a generator for the request in a folder; its exit status, and what it says."""
    asked = request(folder)
    for it in 'later.capnp', 'schema.capnp':
        (folder / it).unlink()
    ran = subprocess.run([pathlib.Path(generator).resolve()], cwd=folder, input=asked, stderr=subprocess.PIPE)
    return ran.returncode, ran.stderr.decode()
