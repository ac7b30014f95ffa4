"""Writes a program that copies messages: it reads each field by generated readers, writes it by generated builders, and prints
the copy as hex digits. Some structs and lists it copies as a whole, and some it opens again after it has made them."""
from printer import arms
from schema import BITS, RUST, always, has_default, kind, members

HEAD = '''//! Copies each message of standard input, by generated readers and builders, and prints the copy as hex digits.
#![tactic(auto)]

use {reading}::{{{modules}}};
use capnp_arena::arena::{{
    BuilderArena, BuilderArenaImpl, HeapAllocator, ReaderArena, ReaderArenaImpl, ReaderOptions,
}};
use capnp_framing::devices::{{MemoryOutput, ReaderInput}};
use capnp_framing::framing::{{read, write}};
use capnp_readers::readers::{{ListPlace, StructPlace}};
use capnp_words::error::ErrorKind;
use capnp_words::read_limiter::ReadLimiter;
use capnp_words::wire_pointer::ElementSize;
use std::alloc::Global;

type Built = BuilderArenaImpl<HeapAllocator>;

fn empty_message(alloc: Global) -> Result<Built, ErrorKind> {{
    let mut built = BuilderArenaImpl::new(alloc, HeapAllocator::new(alloc, 64));
    built.allocate_segment(1)?;
    let _root = built.allocate(0, 1);
    Ok(built)
}}

// An element of a list of pointers: a struct whose pointer 0 is the element.
fn pointer_of(list: ListPlace, index: u32) -> StructPlace {{
    let at = (list.byte / 8) as u32 + index;
    StructPlace {{ segment: list.segment, byte: 8 * u64::from(at), bits: 0, pointers_at: at, pointers: 1 }}
}}
'''
MAIN = '''
fn main(rt: HostRuntime) -> anyhow::Result<()> {{
    let mut input = ReaderInput::new(rt.reader());
    for i in 0..1_000_000_u32 {{
        let Some(segments) = read(rt.alloc(), &mut input, 8_388_608)? else {{
            return Ok(());
        }};
        let from = ReaderArenaImpl::new(segments, ReaderOptions::default());
        let mut lim = ReadLimiter::new(None);
        let mut built = empty_message(rt.alloc())?;
        match i % {count} {{
{arms}        }}
        let made = built.get_segments_for_output()?;
        let mut output = MemoryOutput::new(rt.alloc());
        write(&mut output, &made)?;
        for byte in output.bytes() {{
            print!(&rt; "{{byte:02x}}")?;
        }}
        println!(&rt; "")?;
    }}
    Ok(())
}}
'''
ARM = '''            {which} => {{
                let root = {module}::Reader::root(&from, &mut lim)?;
                let to = {building}::{module}::Builder::init_root(&mut built)?;
                copy_{module}(root, to, &mut built, &mut lim, 64)?;
            }}
'''
SIZES = {'void': 'Void', 'bool': 'Bit', 'int8': 'Byte', 'uint8': 'Byte', 'int16': 'TwoBytes', 'uint16': 'TwoBytes', 'enum': 'TwoBytes', 'int32': 'FourBytes', 'uint32': 'FourBytes', 'float32': 'FourBytes', 'int64': 'EightBytes', 'uint64': 'EightBytes', 'float64': 'EightBytes'}


class Copier:
    def __init__(self, schema, reading, building):
        self.schema, self.reading, self.building = schema, reading, building

    def elements(self, of, source, target, to, pad):
        """Copies the elements of a list: `source` is what reads the list, and `target` the place of the new one."""
        what = kind(of)
        to.append(f'{pad}let list = {source};\n{pad}let made = {target};\n{pad}for i in 0..list.len() {{\n')
        inner = pad + '    '
        if what == 'bool':
            to.append(f'{inner}typed_building::list::set_bool(arena, made, i, list.get(i));\n')
        elif what == 'void':
            to.append(f'{inner}list.get(i);\n')
        elif what in BITS:
            to.append(f'{inner}typed_building::list::set_element(arena, made, i, list.get(i));\n')
        elif what == 'struct':
            to.append(f'{inner}copy_{self.schema.declared(of)["module"]}(list.get(i), made.get(&*arena, i), arena, lim, depth - 1)?;\n')
        elif what in ('text', 'data'):
            to.append(f'{inner}typed_building::list::set_{what}(arena, made, i, list.get(i, lim)?)?;\n')
        elif what == 'list':
            last = of['list']['elementType']
            to.append(f'{inner}let from = list.get(i);\n{inner}let at = pointer_of(made, i);\n{inner}if typed_reading::value::has(&from, 0) {{\n')
            self.elements(last, self.list_at(last), self.made_at(last), to, inner + '    ')
            to.append(f'{inner}}}\n')
        to.append(f'{pad}}}\n')

    def list_at(self, of):
        """The list of these elements, at pointer 0 of the struct `from`."""
        what = kind(of)
        if what in RUST:
            return f'typed_reading::list::get_numbers::<A, {RUST[what]}>(&from, 0, lim)?'
        if what == 'struct':
            return f'{self.schema.declared(of)["module"]}::Readers {{ list: typed_reading::list::get_structs(&from, 0, lim)? }}'
        return f'typed_reading::list::{ {"text": "get_texts", "data": "get_data_list"}.get(what, "get_pointers")}(&from, 0, lim)?'

    def made_at(self, of):
        """A new list of these elements, at pointer 0 of the struct `at`."""
        if kind(of) == 'struct':
            module = f'{self.building}::{self.schema.declared(of)["module"]}'
            return f'{module}::Builders {{ place: typed_building::value::init_struct_list(arena, at, 0, list.len(), {module}::SIZE)? }}'
        return f'typed_building::value::init_list(arena, at, 0, ElementSize::{SIZES.get(kind(of), "Pointer")}, list.len())?'

    def field(self, field, is_member, to, pad):
        getter, setter = field['getter'], field['setter']
        if 'group' in field:
            module = self.schema.nodes[field['group']['typeId']]['module']
            to.append(f'{pad}let group = to.{"init" if is_member else "get"}_{setter}({"arena" if is_member else ""});\n')
            to.append(f'{pad}copy_{module}(r.get_{getter}(), group, arena, lim, depth - 1)?;\n')
            return
        of = field['slot']['type']
        what = kind(of)
        if what == 'void':
            to.append(f'{pad}to.set_{setter}(arena);\n' if is_member else '')
        elif what == 'enum':
            to.append(f'{pad}match r.get_{getter}() {{\n{pad}    Ok(v) => to.set_{setter}(arena, v),\n{pad}    Err(_) => {{}}\n{pad}}}\n')
        elif what in BITS:
            to.append(f'{pad}to.set_{setter}(arena, r.get_{getter}());\n')
        elif what in ('text', 'data', 'struct', 'list'):
            to.append(f'{pad}if r.has_{getter}() {{\n')
            self.pointer(field, to, pad + '    ')
            to.append(f'{pad}}}\n')

    def pointer(self, field, to, pad):
        of, getter, setter = field['slot']['type'], field['getter'], field['setter']
        what, way = kind(of), int(field['slot']['offset']) % 3
        reopens = way == 1 and not has_default(field)
        if what in ('text', 'data'):
            to.append(f'{pad}to.set_{setter}(arena, r.get_{getter}(lim)?)?;\n')
        elif way == 2:
            to.append(f'{pad}to.set_{setter}(arena, &r.get_{getter}(lim)?, lim)?;\n')
        elif what == 'struct':
            to.append(f'{pad}let from = r.get_{getter}(lim)?;\n{pad}let made = to.init_{setter}(arena)?;\n')
            to.append(f'{pad}let made = to.get_{setter}(arena)?;\n' if reopens else '')
            to.append(f'{pad}copy_{self.schema.declared(of)["module"]}(from, made, arena, lim, depth - 1)?;\n')
        else:
            inner = of['list']['elementType']
            arena = 'arena' if kind(inner) == 'struct' else '&*arena'
            again = f'{{\n{pad}    to.init_{setter}(arena, list.len())?;\n{pad}    to.get_{setter}({arena})?\n{pad}}}'
            self.elements(inner, f'r.get_{getter}(lim)?', again if reopens else f'to.init_{setter}(arena, list.len())?', to, pad)

    def function(self, node):
        module, body = node['module'], []
        for field in always(node):
            self.field(field, False, body, '    ')
        if 'which' in node:
            body.append('    match r.which() {\n')
            for field in members(node):
                body.append(f'        Ok({node["which"]}::Which::{field["variant"]}) => {{\n')
                self.field(field, True, body, ' ' * 12)
                body.append('        }\n')
            body.append('        Err(_) => {}\n    }\n')
        return (f'\nfn copy_{module}<A: ReaderArena, B: BuilderArena>(\n    r: {module}::Reader<\'_, A>,\n    to: {self.building}::{module}::Builder,\n    arena: &mut B,\n    lim: &mut ReadLimiter,\n    depth: u32,\n'
                f') -> anyhow::Result<()> {{\n    let _ = (&r, &to, &lim);\n    if depth == 0 {{\n        return Ok(());\n    }}\n{"".join(body)}    Ok(())\n}}\n')


def program(schema, reading, building, roots):
    """The text of the program for messages whose roots are these structs in turn."""
    copier = Copier(schema, reading, building)
    structs = [node for node in schema.written if 'struct' in node]
    functions = ''.join(copier.function(node) for node in structs)
    modules = sorted({node['module'] for node in structs} | {node['which'] for node in structs if 'which' in node})
    tried = arms(ARM, [schema.find(it) for it in roots], building=building)
    return HEAD.format(reading=reading, modules=', '.join(modules)) + functions + MAIN.format(count=len(roots), arms=tried)
