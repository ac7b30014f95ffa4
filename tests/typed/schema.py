"""A schema as `capnp` says that it is, with the names that generated readers have."""
import pathlib
import re
import subprocess

# Of each kind of number: its bits, and the type that a list of it is read as.
BITS = {'bool': 1, 'int8': 8, 'int16': 16, 'int32': 32, 'int64': 64, 'uint8': 8, 'uint16': 16, 'uint32': 32, 'uint64': 64, 'float32': 32, 'float64': 64, 'enum': 16}
RUST = {'void': '()', 'bool': 'bool', 'enum': 'u16', 'float32': 'u32', 'float64': 'u64'}
RUST |= {f'{sign}int{bits}': f'{letter}{bits}' for sign, letter in (('', 'i'), ('u', 'u')) for bits in (8, 16, 32, 64)}
# Names that the generator doesn't give.
MODULE_WORDS = set('as break const continue crate else enum extern false fn for if impl in let loop match mod move mut pub ref return self static struct super trait true type unsafe use where while async await dyn abstract become box do final macro override priv typeof unsized virtual yield try gen ghost requires ensures result lib std core main value list syntax prim copying groups opening reading'.split())
BUILDER_WORDS = {'root'}
VARIANT_WORDS = {'Self', 'Type', 'Below'}
ENUM_WORDS = VARIANT_WORDS | {'Number', 'NotInSchema'}
TOKEN = re.compile(r'\s*("(?:[^"\\]|\\.)*"|0x"[^"]*"|[A-Za-z_][\w]*|<[^>]*>|-?[\w.+-]+|[()\[\]=,])')
NO_DISCRIMINANT = '65535'
# How many structs deep the programs print a default value.
DEFAULT_DEPTH = 4


def described():
    """The path of `schema.capnp`."""
    folders = ('/usr/include', '/usr/local/include', '/opt/homebrew/include')
    return next(str(it) for folder in folders if (it := pathlib.Path(folder) / 'capnp/schema.capnp').is_file())


def parsed(text):
    """A value as `capnp decode` prints it: a dict for a struct, a list for a list, and the text of anything else."""
    tokens = TOKEN.findall(text)
    at = 0

    def value():
        nonlocal at
        token, at = tokens[at], at + 1
        if token == '(' and tokens[at] != ')' and tokens[at + 1] == ')':
            # a number of an enum that the schema has no name for
            token, at = tokens[at], at + 2
            return token
        if token == '(':
            found = {}
            while tokens[at] != ')':
                key, at = tokens[at], at + 2
                found[key] = value()
                at += tokens[at] == ','
            at += 1
            return found
        if token == '[':
            found = []
            while tokens[at] != ']':
                found.append(value())
                at += tokens[at] == ','
            at += 1
            return found
        return token

    return value()


def values(text):
    """The structs in a text, one after another."""
    depth, start, at, quoted = 0, 0, 0, False
    while at < len(text):
        sign = text[at]
        if quoted:
            at += sign == '\\'
            quoted = sign != '"'
        elif sign == '"':
            quoted = True
        elif sign == '(':
            start, depth = (start if depth else at), depth + 1
        elif sign == ')':
            depth -= 1
            if not depth:
                yield text[start:at + 1]
        at += 1


def unquoted(token):
    """The bytes of a text or of data."""
    if token.startswith('0x"'):
        return bytes.fromhex(token[3:-1].replace(' ', ''))
    out, text, at = bytearray(), token[1:-1].encode('utf-8', 'surrogateescape'), 0
    while at < len(text):
        if text[at] != 0x5c:
            out.append(text[at])
            at += 1
            continue
        sign = chr(text[at + 1])
        if sign == 'x':
            out.append(int(text[at + 2:at + 4], 16))
            at += 4
        elif sign in '01234567':
            out.append(int(text[at + 1:at + 4], 8))
            at += 4
        else:
            out.append({'n': 10, 't': 9, 'r': 13, 'a': 7, 'b': 8, 'f': 12, 'v': 11}.get(sign, ord(sign)))
            at += 2
    return bytes(out)


def kind(of):
    """The kind of a type: the member of its union that is set."""
    return next(iter(of))


def has_default(field):
    """Whether a field is a struct or a list with a default value."""
    return kind(field['slot']['type']) in ('struct', 'list') and field['slot']['hadExplicitDefault'] == 'true'


def name_of(of):
    """The name of a field, or of an enumerant."""
    return unquoted(of['name']).decode()


def snake_case(name):
    out = ''
    for sign in name:
        if sign.isalnum() and sign.isascii():
            out += ('_' if sign.isupper() and out and not out.endswith('_') else '') + sign.lower()
        else:
            out += '_'
    return out


def capitalized(name):
    return name[:1].upper() + name[1:]


def take(taken, name):
    while name in taken:
        name += '_'
    taken.add(name)
    return name


class Schema:
    """The declarations of a schema: `nodes` by their ids; structs and groups with their fields, enums with their variants."""

    def __init__(self, path):
        self.path, self.defaults = path, {}
        asked = subprocess.run(['capnp', 'compile', '-o-', path], check=True, stdout=subprocess.PIPE).stdout
        text = subprocess.run(['capnp', 'decode', described(), 'CodeGeneratorRequest'], input=asked, check=True, stdout=subprocess.PIPE).stdout
        every = parsed(text.decode())['nodes']
        self.nodes = {node['id']: node for node in every}
        # without the structs that the compiler makes, or imports, for the parameters and results of methods
        self.written = [node for node in every if ('struct' in node or 'enum' in node) and not re.search(r'\$|capnp/stream\.capnp:', node['displayName'])]
        taken = set(MODULE_WORDS)
        for node in self.written:
            node['full'] = unquoted(node['displayName']).decode().split(':', 1)[1]
            node['snake'] = snake_case(node['full'])
            node['module'] = take(taken, node['snake'])
            node['type'] = take(set(ENUM_WORDS), capitalized(node['full'].split('.')[-1]))
        for node in self.written:
            if 'struct' in node:
                self.name_fields(node)
                if int(node['struct']['discriminantCount']):
                    node['which'] = take(taken, node['snake'] + '_which')
            else:
                used = VARIANT_WORDS | {node['type']}
                node['variants'] = [take(used, capitalized(name_of(it))) for it in node['enum'].get('enumerants', [])]

    def name_fields(self, node):
        """Names the calls of a struct's fields, and the variants of its union."""
        used, set_by, variants = set(), set(BUILDER_WORDS), VARIANT_WORDS | {'Which'}
        node['fields'] = node['struct'].get('fields', [])
        for field in node['fields']:
            field['getter'] = take(used, snake_case(name_of(field)))
            field['setter'] = take(set_by, snake_case(name_of(field)))
        for field in sorted(members(node), key=lambda it: int(it['discriminantValue'])):
            field['variant'] = take(variants, capitalized(name_of(field)))

    def default(self, name):
        """The default value of a field: a schema has a constant for each, which `capnp` prints."""
        if name not in self.defaults:
            run = subprocess.run(['capnp', 'eval', self.path, f'{name}Default'], stdout=subprocess.PIPE, check=True)
            self.defaults[name] = parsed(run.stdout.decode())
        return self.defaults[name]

    def structs(self):
        """The names of the structs."""
        return [node['full'] for node in self.written if 'struct' in node and node['struct'].get('isGroup') != 'true']

    def find(self, full):
        """The declaration with this name."""
        return next(node for node in self.written if node['full'] == full)

    def declared(self, of):
        """The declaration of a type that is a struct or an enum."""
        return self.nodes[of[kind(of)]['typeId']]


def members(node):
    """The fields in the union of a struct."""
    return [field for field in node['fields'] if field['discriminantValue'] != NO_DISCRIMINANT]


def always(node):
    """The fields outside of the union of a struct."""
    return [field for field in node['fields'] if field['discriminantValue'] == NO_DISCRIMINANT]
