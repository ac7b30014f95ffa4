"""Writes a program in Rust over generated code: it prints messages, copies each field of them, checks them, or copies
them by plain values, by the words `print`, `copy`, `check` and `value`. It prints in the notation of `capnp decode`, except that enums are numbers, and floats their bits, and
that bytes are lists.

Each function is written twice: for checked readers, whose getters return values, and for the others, whose getters return a
`Result`."""
import re

from schema import BITS, DEFAULT_DEPTH, NO_DISCRIMINANT, always, has_default, kind, members, name_of, take, unquoted

HEAD = '''//! Prints, copies or checks each message of standard input, by generated code.
mod {file};

use capnp_layout::{{Builder, Error, Limits, Message, Meter, Outcome}};
use std::fmt::Write as _;
use std::io::{{Read as _, Write as _}};

fn show_bytes(bytes: &[u8], out: &mut String) {{
    out.push('[');
    for byte in bytes {{
        write!(out, "{{byte}}, ").unwrap();
    }}
    out.push(']');
}}
'''
MAIN = '''
fn main() {{
    let mut bytes = Vec::new();
    std::io::stdin().read_to_end(&mut bytes).unwrap();
    let word = std::env::args().nth(1).unwrap();
    let is_altered = word == "altered";
    let (mut rest, mut i) = (&bytes[..], 0);
    while !rest.is_empty() {{
        let (message, after) = Message::open_first(rest, Limits::default()).unwrap();
        let made = match i % {count} {{
{arms}        }};
        match made {{
            Err(_) if is_altered => println!("refused"),
            made => println!("{{}}", made.unwrap()),
        }}
        (rest, i) = (after, i + 1);
    }}
    std::io::stdout().flush().unwrap();
}}

fn hex(built: Builder) -> Result<String, Error> {{
    Ok(built.to_frame()?.iter().map(|byte| format!("{{byte:02x}}")).collect())
}}

/// `same`, if what is read is as it was. A value doesn't tell empty texts and lists from null, and keeps no pointer of any kind.
fn copied(old: &str, new: &str, are_equal: bool) -> String {{
    let plain = |text: &str| text.replace("= null", "= []").replace("= any", "= []");
    match plain(old) == plain(new) && are_equal {{
        true => "same".into(),
        false => format!("{{old}} became {{new}}"),
    }}
}}

/// `yes` or `no`, if all readers agree: whoever reads after a yes gets what lazy readers read, and if all fields of a
/// sound message can be read, the answer is yes.
fn agreed(checked: Result<String, Error>, sound: Result<String, Error>, lazy: Result<String, Error>) -> String {{
    match (checked, sound, lazy) {{
        (Ok(checked), Ok(sound), Ok(lazy)) if checked == sound && sound == lazy => "yes".into(),
        (Err(_), Err(_), _) => "no".into(),
        (checked, sound, lazy) => format!("{{checked:?}}, but {{sound:?}} and {{lazy:?}}"),
    }}
}}
'''
# What is done with a message. It is printed, in turn, by a lazy reader, after a check without the schema, and after one against it.
ARM = '''            {which} => (|| {{
                let checked = || {{
                    let mut out = String::new();
                    checked_{name}(message.root::<{type}>()?, &mut out, 64);
                    Ok::<_, Error>(out)
                }};
                let sound = || {{
                    let mut out = String::new();
                    show_{name}(message.sound()?.into(), &mut out, 64)?;
                    Ok::<_, Error>(out)
                }};
                let lazy = || {{
                    let mut out = String::new();
                    show_{name}(message.lazy()?.into(), &mut out, 64)?;
                    Ok::<_, Error>(out)
                }};
                let mut built = Builder::new();
                match (word.as_str(), i % 3) {{
                    ("check", _) => return Ok(agreed(checked(), sound(), lazy())),
                    ("value", _) => {{
                        let _shown = format!("{{:?}}", message.root::<{type}>()?);
                        let value = {module}::Value::from(message.root::<{type}>()?);
                        value.write_to(built.init::<{type}>());
                        let made = built.as_message()?;
                        let mut out = String::new();
                        checked_{name}(made.root::<{type}>()?, &mut out, 64);
                        let again = {module}::Value::from(made.root::<{type}>()?);
                        return Ok(copied(&checked()?, &out, format!("{{value:?}}") == format!("{{again:?}}")));
                    }}
                    ("copy", 0) => copy_{name}(message.sound()?.into(), built.init::<{type}>(), 64)?,
                    ("copy", _) => copy_checked_{name}(message.root::<{type}>()?, built.init::<{type}>(), 64),
                    (_, 0) => return lazy(),
                    (_, 1) => return sound(),
                    _ => return checked(),
                }}
                hex(built)
            }})(),
'''
WORDS = set('as async await break const continue crate dyn else enum extern false fn for if impl in let loop match mod move mut pub ref return self static struct super trait true type unsafe use where while abstract become box do final gen macro override priv try typeof unsized virtual yield'.split())
FOLLOWED = 'text', 'data', 'struct', 'list', 'interface'


def snake(name):
    """The name of a call or a module: a word begins at a capital that isn't after a capital, or is before a small letter."""
    return re.sub(r'(?<=[a-z0-9])(?=[A-Z])|(?<=[A-Z])(?=[A-Z][a-z])', '_', name).lower()


def capital(name):
    return name[:1].upper() + name[1:]


class Code:
    """The functions of a program for a schema."""

    def __init__(self, schema, file):
        self.schema, self.is_checked, taken = schema, False, {}
        for node in schema.nodes.values():
            node['last'] = unquoted(node['displayName']).decode().split(':')[-1].split('.')[-1]
            values = {'Value', 'WhichValue'} if 'struct' in schema.nodes.get(node['scopeId'], ()) else set()
            scope = taken.setdefault(node['scopeId'], WORDS | values | {'Self', 'Builder', 'Which', 'Option', 'Result', 'g'})
            node['own'] = take(scope, snake(node['last']))
            node['rust'] = take(scope, capital(node['last']))
        for node in schema.written:
            node['around'] = self.around(node, file)
            variants = {'Self', 'Unknown'}
            for field in node.get('fields', ()):
                field['variant'] = take(variants, capital(name_of(field)))

    def around(self, node, file):
        """The path of the module that a declaration is in."""
        scope = self.schema.nodes.get(node['scopeId'])
        return f'{self.around(scope, file)}::{scope["own"]}' if scope and 'struct' in scope else file

    def type(self, node):
        return f'{node["around"]}::{node["rust"]}'

    def call(self, field):
        name = snake(name_of(field))
        return name + '_' if name in WORDS else name

    def tried(self, call, is_followed=True):
        """A call that follows a pointer, with a `?` unless the reader was checked. `into_result` is for functions for readers of every kind."""
        return f'{call}.into_result()?' if is_followed and not self.is_checked else call

    def of(self, name):
        """The name of a function: those for checked readers differ."""
        return {'show': 'checked', 'copy': 'copy_checked'}[name] if self.is_checked else name

    def function(self, name, node, args):
        """A call of a function for a struct or a group."""
        return f'{self.of(name)}_{node["module"]}({args}, depth - 1){"" if self.is_checked else "?"};\n'

    def struct(self, name, of, args):
        return self.function(name, self.schema.declared(of), args)

    def group(self, name, field, args):
        return self.function(name, self.schema.nodes[field['group']['typeId']], args)

    def head(self, name, node, args):
        """What begins a function, and what ends it."""
        if self.is_checked:
            return f'\nfn {self.of(name)}_{node["module"]}(r: {self.type(node)}, {args}, depth: u32) {{\n', 'return;\n', '}\n'
        generic = f'<M: Meter>(r: {self.type(node)}<\'_, M>'
        return f'\nfn {name}_{node["module"]}{generic}, {args}, depth: u32) -> Result<(), Error> {{\n', 'return Ok(());\n', 'Ok(())\n}\n'

    def show(self, of, got, to):
        """Prints a value that is read."""
        what = kind(of)
        if what == 'void':
            to.append(f'let _ = {got};\nout.push_str("void");\n')
        elif what == 'enum':
            to.append(f'write!(out, "{{}}", u16::from({got})).unwrap();\n')
        elif what.startswith('float'):
            to.append(f'write!(out, "{{}}", {got}.to_bits()).unwrap();\n')
        elif what in BITS:
            to.append(f'write!(out, "{{}}", {got}).unwrap();\n')
        elif what == 'text':
            to.append(f'show_bytes({got}.as_bytes(), out);\n')
        elif what == 'data':
            to.append(f'show_bytes({got}, out);\n')
        elif what == 'struct':
            to.append(self.struct('show', of, f'{got}, out'))
        elif what == 'list':
            inner = of['list']['elementType']
            to.append(f'out.push(\'[\');\nfor item in {got} {{\n')
            self.show(inner, self.tried('item', kind(inner) in ('text', 'data', 'list')), to)
            to.append('out.push_str(", ");\n}\nout.push(\']\');\n')
        else:
            to.append(f'let _ = {got};\nout.push_str("any");\n')

    def show_field(self, field, to):
        to.append(f'out.push_str("{name_of(field)} = ");\n')
        call = self.call(field)
        if 'group' in field:
            to.append(self.group('show', field, f'r.{call}(), out'))
            to.append('out.push_str(", ");\n')
            return
        of = field['slot']['type']
        what = kind(of)
        may_be_null = what in ('struct', 'list', 'anyPointer', 'interface') and not has_default(field)
        to.append(f'if !r.has_{snake(name_of(field))}() {{\nout.push_str("null");\n}} else {{\n' if may_be_null else '')
        to.append(self.shallower(field))
        self.show(of, 'r' if what == 'void' else self.tried(f'r.{call}()', what in FOLLOWED), to)
        to.append('}\n' if may_be_null or has_default(field) else '')
        to.append('out.push_str(", ");\n')

    def which(self, node):
        """The call that says which member is set."""
        followed = any('slot' in it and kind(it['slot']['type']) in FOLLOWED for it in members(node))
        return self.tried('r.which()', followed)

    def variants(self, node, write, to):
        """A match of a union: what `write` says for each member."""
        which = f'{node["around"]}::{node["own"]}::Which'
        to.append(f'match {self.which(node)} {{\n')
        for field in members(node):
            is_void = 'slot' in field and kind(field['slot']['type']) == 'void'
            to.append(f'{which}::{field["variant"]}{"" if is_void else "(v)"} => {{\n')
            write(field, to)
            to.append('}\n')
        to.append(f'{which}::Unknown(n) => {{\nlet _ = n;\n{"UNKNOWN"}}}\n}}\n')

    def show_member(self, field, to):
        to.append(f'out.push_str("{name_of(field)} = ");\n')
        if 'group' in field:
            to.append(self.group('show', field, 'v, out'))
        else:
            to.append(self.shallower(field))
            self.show(field['slot']['type'], 'r' if kind(field['slot']['type']) == 'void' else 'v', to)
            to.append('}\n' if has_default(field) else '')

    def shallower(self, field):
        """Opens a block in which only some levels of a default value are printed: it may contain its own type, whose
        fields have it as their default value again. Empty if the field has none."""
        if not has_default(field):
            return ''
        # lists of numbers and texts are printed without a depth
        return f'{{\nlet depth = if r.has_{snake(name_of(field))}() {{ depth }} else {{ depth.min({DEFAULT_DEPTH}) }};\nlet _ = depth;\n'

    def shower(self, node):
        body = []
        for field in always(node):
            self.show_field(field, body)
        if members(node):
            self.variants(node, self.show_member, body)
        text = ''.join(body).replace('UNKNOWN', 'write!(out, "unknown = {n}").unwrap();\n')
        head, leave, end = self.head('show', node, 'out: &mut String')
        return f'{head}let _ = (&r, depth);\nif depth == 0 {{\nout.push_str("deep");\n{leave}}}\nout.push(\'(\');\n{text}out.push(\')\');\n{end}'

    def copy_elements(self, of, source, made, to):
        """Copies the elements of a list: `source` is the list, and `made` the new one."""
        what = kind(of)
        to.append(f'{{\nlet list = {source};\nlet mut made = {made};\nfor (i, item) in list.into_iter().enumerate() {{\n')
        if what == 'struct':
            to.append(self.struct('copy', of, 'item, made.at(i)'))
        elif what == 'list':
            inner = of['list']['elementType']
            init = 'init_structs' if kind(inner) == 'struct' else 'init'
            self.copy_elements(inner, self.tried('item'), f'made.{init}(i, list.len())', to)
        elif what == 'void':
            to.append('let () = item;\nlet _ = (i, &mut made);\n')
        elif what in ('text', 'data'):
            to.append(f'made.set(i, {self.tried("item")});\n')
        elif what in BITS:
            to.append('made.set(i, item);\n')
        else:
            to.append('let _ = (i, item, &mut made);\n')
        to.append('}\n}\n')

    def copy_pointer(self, field, got, to):
        """Copies a struct or a list: as a whole, into a new one, or into one that is opened again."""
        of, name, way = field['slot']['type'], snake(name_of(field)), int(field['slot']['offset']) % 3
        what = kind(of)
        is_list_of_structs = what == 'list' and kind(of['list']['elementType']) == 'struct'
        reopens = way == 1 and not has_default(field) and (what == 'struct' or is_list_of_structs)
        if way == 2:
            to.append(f'to.set_{name}({got});\n')
        elif what == 'struct':
            to.append(f'to.init_{name}();\n' if reopens else '')
            to.append(self.struct('copy', of, f'{got}, to.{"edit" if reopens else "init"}_{name}()'))
        else:
            to.append(f'to.init_{name}({got}.len());\n' if reopens else '')
            self.copy_elements(of['list']['elementType'], got, f'to.edit_{name}()' if reopens else f'to.init_{name}(list.len())', to)

    def copy_value(self, field, got, to):
        of, name = field['slot']['type'], snake(name_of(field))
        what = kind(of)
        if what in ('struct', 'list'):
            self.copy_pointer(field, got, to)
        elif what == 'interface':
            to.append(f'let _ = {got};\n')
        else:
            to.append(f'to.set_{name}({got});\n')

    def copy_unless_null(self, field, to):
        """Copies a member of a union that is a pointer.  One that is null keeps being null only for the member 0."""
        name, inner = snake(name_of(field)), []
        self.copy_value(field, 'v', inner)
        to.append(f'if r.has_{name}() {{\n{"".join(inner)}}} else {{\nlet _ = v;\n}}\n')

    def copy_field(self, field, to):
        call = self.call(field)
        if 'group' in field:
            to.append(self.group('copy', field, f'r.{call}(), to.{call}()'))
            return
        what = kind(field['slot']['type'])
        if what == 'void' or what == 'interface':
            return
        got = self.tried(f'r.{call}()', what in FOLLOWED)
        to.append(f'if r.has_{snake(name_of(field))}() {{\n' if what in FOLLOWED else '')
        self.copy_value(field, got, to)
        to.append('}\n' if what in FOLLOWED else '')

    def copy_member(self, field, to):
        name = snake(name_of(field))
        if 'group' in field:
            to.append(self.group('copy', field, f'v, to.init_{name}()'))
        elif kind(field['slot']['type']) == 'void':
            to.append(f'to.set_{name}();\n')
        elif kind(field['slot']['type']) in FOLLOWED:
            self.copy_unless_null(field, to)
        else:
            self.copy_value(field, 'v', to)

    def copier(self, node):
        body = []
        for field in always(node):
            self.copy_field(field, body)
        if members(node):
            self.variants(node, self.copy_member, body)
        text = ''.join(body).replace('UNKNOWN', '')
        head, leave, end = self.head('copy', node, f'mut to: {node["around"]}::{node["own"]}::Builder<\'_>')
        return f'{head}let _ = (&r, &mut to, depth);\nif depth == 0 {{\n{leave}}}\n{text}{end}'


def program(schema, file, roots):
    """The text of the program for messages whose roots are these structs in turn. `file` is the generated module."""
    code = Code(schema, file)
    structs = [node for node in schema.written if 'struct' in node]
    functions = ''
    for code.is_checked in (False, True):
        functions += ''.join(code.shower(node) + code.copier(node) for node in structs)
    found = [schema.find(it) for it in roots]
    arms = ''.join(ARM.format(which=i if i + 1 < len(roots) else '_', name=node['module'], type=code.type(node), module=f'{node["around"]}::{node["own"]}') for i, node in enumerate(found))
    return HEAD.format(file=file) + functions + MAIN.format(count=len(roots), arms=arms)
