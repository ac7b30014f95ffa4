"""Writes a program that prints messages by generated readers: each field, in the notation of `capnp decode`, except that enums
are numbers, and floats their bits, and that bytes are lists."""
import re

from schema import BITS, DEFAULT_DEPTH, RUST, always, has_default, kind, members, name_of

HEAD = '''//! Prints each message of standard input, by generated readers.
#![tactic(auto)]

{uses}use capnp_arena::arena::{{ReaderArena, ReaderArenaImpl, ReaderOptions}};
use capnp_framing::devices::ReaderInput;
use capnp_framing::framing::read;
use capnp_words::read_limiter::ReadLimiter;
use typed_reading::{{list, value}};

fn print_bytes(rt: &impl Print, bytes: &[u8]) -> anyhow::Result<()> {{
    print!(rt; "[")?;
    for byte in bytes {{
        print!(rt; "{{byte}}, ")?;
    }}
    print!(rt; "]")?;
    Ok(())
}}
'''
MAIN = '''
fn main(rt: HostRuntime) -> anyhow::Result<()> {{
    let mut input = ReaderInput::new(rt.reader());
    for i in 0..1_000_000_u32 {{
        let Some(segments) = read(rt.alloc(), &mut input, 8_388_608)? else {{
            return Ok(());
        }};
        let arena = ReaderArenaImpl::new(segments, ReaderOptions::default());
        let mut lim = ReadLimiter::new(None);
        match i % {count} {{
{arms}        }}
        println!(&rt; "")?;
    }}
    Ok(())
}}
'''
ARM = '''            {which} => {{
                let root = {module}::Reader::root(&arena, &mut lim)?;
                print_{module}(&rt, root, &mut lim, 64)?;
            }}
'''


class Printer:
    def __init__(self, schema):
        self.schema = schema

    def element(self, of, got, to, pad):
        """Prints an element of a list, which the expression `got` reads as a number, a struct, or a struct with one pointer."""
        what = kind(of)
        if what == 'void':
            to.append(f'{pad}{got};\n{pad}print!(rt; "void, ")?;\n')
        elif what in RUST:
            to.append(f'{pad}let v = {got};\n{pad}print!(rt; "{{v}}, ")?;\n')
        elif what == 'struct':
            module = self.schema.declared(of)['module']
            to.append(f'{pad}print_{module}(rt, {got}, lim, depth - 1)?;\n{pad}print!(rt; ", ")?;\n')
        elif what in ('text', 'data'):
            to.append(f'{pad}print_bytes(rt, {got})?;\n{pad}print!(rt; ", ")?;\n')
        elif what == 'list':
            to.append(f'{pad}let e = {got};\n')
            self.elements(of['list']['elementType'], self.list_at(of['list']['elementType'], '&e', 0), to, pad)
            to.append(f'{pad}print!(rt; ", ")?;\n')
        else:
            to.append(f'{pad}print!(rt; "any, ")?;\n')

    def list_at(self, of, reader, index):
        """The list of these elements, at a pointer of a struct."""
        what = kind(of)
        if what in RUST:
            return f'list::get_numbers::<A, {RUST[what]}>({reader}, {index}, lim)?'
        if what == 'struct':
            return f'{self.schema.declared(of)["module"]}::Readers {{ list: list::get_structs({reader}, {index}, lim)? }}'
        return f'list::{ {"text": "get_texts", "data": "get_data_list"}.get(what, "get_pointers")}({reader}, {index}, lim)?'

    def elements(self, of, got, to, pad):
        """Prints a list."""
        limited = 'i, lim)?' if kind(of) in ('text', 'data') else 'i)'
        to.append(f'{pad}let l = {got};\n{pad}print!(rt; "[")?;\n{pad}for i in 0..l.len() {{\n')
        self.element(of, f'l.get({limited}', to, pad + '    ')
        to.append(f'{pad}}}\n{pad}print!(rt; "]")?;\n')

    def field(self, field, to, pad):
        getter, name = field['getter'], name_of(field)
        to.append(f'{pad}print!(rt; "{name} = ")?;\n')
        if 'group' in field:
            module = self.schema.nodes[field['group']['typeId']]['module']
            to.append(f'{pad}print_{module}(rt, r.get_{getter}(), lim, depth - 1)?;\n')
        else:
            self.slot(field['slot']['type'], getter, to, pad, has_default(field))
        to.append(f'{pad}print!(rt; ", ")?;\n')

    def slot(self, of, getter, to, pad, is_never_null):
        what = kind(of)
        if what == 'void':
            to.append(f'{pad}print!(rt; "void")?;\n')
        elif what == 'enum':
            node = self.schema.declared(of)
            arms = ''.join(f'{pad}    Ok({node["module"]}::{node["type"]}::{it}) => {i},\n' for i, it in enumerate(node['variants']))
            to.append(f'{pad}let v: u16 = match r.get_{getter}() {{\n{arms}{pad}    Err(e) => e.0,\n{pad}}};\n{pad}print!(rt; "{{v}}")?;\n')
        elif what in BITS:
            to.append(f'{pad}let v = r.get_{getter}();\n{pad}print!(rt; "{{v}}")?;\n')
        elif what in ('text', 'data'):
            to.append(f'{pad}print_bytes(rt, r.get_{getter}(lim)?)?;\n')
        else:
            to.append(f'{pad}if {"true" if is_never_null else f"r.has_{getter}()"} {{\n')
            if is_never_null:
                # a default value may contain its own type, whose fields have it as their default value again
                to.append(f'{pad}    let depth = if r.has_{getter}() {{ depth }} else {{ depth.min({DEFAULT_DEPTH}) }};\n')
            if what == 'struct':
                to.append(f'{pad}    print_{self.schema.declared(of)["module"]}(rt, r.get_{getter}(lim)?, lim, depth - 1)?;\n')
            elif what == 'list':
                self.elements(of['list']['elementType'], f'r.get_{getter}(lim)?', to, pad + '    ')
            else:
                to.append(f'{pad}    print!(rt; "any")?;\n')
            to.append(f'{pad}}} else {{\n{pad}    print!(rt; "null")?;\n{pad}}}\n')

    def function(self, node):
        module, body = node['module'], []
        for field in always(node):
            self.field(field, body, '    ')
        if 'which' in node:
            body.append('    match r.which() {\n')
            for field in members(node):
                body.append(f'        Ok({node["which"]}::Which::{field["variant"]}) => {{\n')
                self.field(field, body, ' ' * 12)
                body.append('        }\n')
            body.append('        Err(e) => {\n            let v = e.0;\n            print!(rt; "unknown = {v}")?;\n        }\n    }\n')
        return (f'\nfn print_{module}<A: ReaderArena>(\n    rt: &impl Print,\n    r: {module}::Reader<\'_, A>,\n    lim: &mut ReadLimiter,\n    depth: u32,\n'
                f') -> anyhow::Result<()> {{\n    if depth == 0 {{\n        print!(rt; "deep")?;\n        return Ok(());\n    }}\n    print!(rt; "(")?;\n'
                f'    let _ = (&r, &lim);\n{"".join(body)}    print!(rt; ")")?;\n    Ok(())\n}}\n')


class CheckedPrinter(Printer):
    """The same by readers of checked messages. A struct or a list with a default value is printed as null if its pointer is null.
    `crate` is the folder of their crate."""

    def __init__(self, schema, crate):
        super().__init__(schema)
        self.source = {it.stem: it.read_text(encoding='utf-8') for it in (crate / 'src').glob('*.rt')}
        self.words = [int(it) for it in re.findall(r'\d+', self.source['schema_table'].partition('] = [')[2].partition(']')[0])]

    def getter(self, module, getter):
        """The text of a getter from its name on."""
        return self.source[module].partition(f'pub fn get_{getter}(')[2]

    def value(self, of, got, row, to, pad):
        """Prints what the expression `got` reads of a pointer. `row` is that of the elements of a list of pointers."""
        what = kind(of)
        if what == 'text':
            to.append(f'{pad}print_bytes(rt, {got}.as_bytes())?;\n')
        elif what == 'data':
            to.append(f'{pad}print_bytes(rt, {got})?;\n')
        elif what == 'struct':
            to.append(f'{pad}print_{self.schema.declared(of)["module"]}(rt, {got}, lim, depth - 1)?;\n')
        else:
            self.list(of['list']['elementType'], got, row, to, pad)

    def list(self, of, got, row, to, pad):
        """Prints a list."""
        what, inner = kind(of), pad + '    '
        to.append(f'{pad}let l = {got};\n{pad}print!(rt; "[")?;\n{pad}for i in 0..l.len() {{\n')
        if what in RUST or what == 'struct':
            self.element(of, 'l.get(i)', to, inner)
        elif what in ('text', 'data', 'list'):
            to.append(f'{inner}let e = l.get(i);\n')
            below = self.words[row + 1] // 16
            self.value(of, self.read_element(of, below), below, to, inner)
            to.append(f'{inner}print!(rt; ", ")?;\n')
        else:
            to.append(f'{inner}print!(rt; "any, ")?;\n')
        to.append(f'{pad}}}\n{pad}print!(rt; "]")?;\n')

    def read_element(self, of, row):
        """What reads pointer 0 of an element `e` of a list of pointers. `row` is that of what the pointer leads to."""
        what = kind(of)
        if what != 'list':
            return f'e.get_{ {"text": "str"}.get(what, what)}(0)'
        inner = of['list']['elementType']
        if kind(inner) == 'struct':
            return f'{self.schema.declared(inner)["module"]}::CheckedList {{ list: e.get_structs(0) }}'
        if kind(inner) in RUST:
            return f'e.get_numbers::<{RUST[kind(inner)]}>(0)'
        return f'e.get_pointers::<{row}>(0)'

    def slot(self, of, getter, to, pad, is_never_null):
        what = kind(of)
        if what not in ('text', 'data', 'struct', 'list'):
            super().slot(of, getter, to, pad, is_never_null)
            return
        text = self.getter(self.module, getter)
        gives = text.partition(' -> ')[2].partition('\n')[0]
        row = int((re.search(r'schema_table::Table, (\d+)>', gives) or [0, 0])[1])
        may_be_null = what in ('struct', 'list')
        to.append(f'{pad}if r.has_{getter}() {{\n' if may_be_null else '')
        if gives.startswith('Option<'):
            to.append(f'{pad}let Some(v) = r.get_{getter}() else {{\n{pad}    anyhow::bail!("{getter} is not set");\n{pad}}};\n')
            self.value(of, 'v', row, to, pad)
        else:
            self.value(of, f'r.get_{getter}()', row, to, pad)
        to.append(f'{pad}}} else {{\n{pad}    print!(rt; "null")?;\n{pad}}}\n' if may_be_null else '')

    def function(self, node):
        self.module = node['module']
        return super().function(node).replace(f'{node["module"]}::Reader<', f'{node["module"]}::Checked<')


def arms(arm, roots, **names):
    """The arms of a match: what a program does with a message whose root is each of these structs in turn."""
    return ''.join(arm.format(which=i if i + 1 < len(roots) else '_', module=root['module'], **names) for i, root in enumerate(roots))


def program(schema, crate, roots):
    """The text of the program for messages whose roots are these structs in turn."""
    return written(Printer(schema), schema, crate, crate, roots)


def checked_program(schema, reading, folder, roots):
    """The same by readers of checked messages, whose crate is in a folder."""
    text = written(CheckedPrinter(schema, folder), schema, folder.name, reading, roots)
    return text.replace('::Reader::root(&arena, &mut lim)?', '::Checked::root(&arena, &mut lim).map_err(|misfit| misfit.error)?')


def written(printer, schema, crate, reading, roots):
    """The text of a program. `crate` has the structs, and `reading` the enums."""
    structs = [node for node in schema.written if 'struct' in node]
    functions = ''.join(printer.function(node) for node in structs)
    enums = {node['module'] for node in schema.written if 'enum' in node and node['module'] + '::' in functions} | {node['which'] for node in structs if 'which' in node}
    modules = {node['module'] for node in structs}
    uses = {crate: modules | enums} if crate == reading else {crate: modules, reading: enums} if enums else {crate: modules}
    uses = ''.join(f'use {name}::{{{", ".join(sorted(of))}}};\n' for name, of in sorted(uses.items()))
    return HEAD.format(uses=uses) + functions + MAIN.format(count=len(roots), arms=arms(ARM, [schema.find(it) for it in roots]))
