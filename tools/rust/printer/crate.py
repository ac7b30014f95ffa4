"""The crate in generated/rust: which libraries it has, and its files."""
import pathlib
import re

from . import library
from .auditing import Audit
from .departures import Departures
from .tokens import NotPrintable

# The libraries that users call or that those need, and those that only programs and tests of this repository need.
LIBRARIES = ('capnp_format', 'capnp_words', 'capnp_arena_traits', 'capnp_arena', 'capnp_framing', 'capnp_packing', 'capnp_allocation',
             'capnp_in_place', 'capnp_pointers', 'capnp_readers', 'capnp_copies', 'capnp_messages', 'capnp_refusals', 'capnp_walks',
             'capnp_builders', 'typed_messages', 'typed_reading', 'typed_conforming', 'typed_building', 'capnp_numbers',
             'capnp_canonical')
OF_PROGRAMS = 'capnp_edits', 'capnp_layout', 'capnp_show', 'capnp_streams', 'layout_vectors'
# Which departures are for these libraries. The others are for programs.
DEPARTURES = 'drop', 'io_error'
NAME = 'capnp_proved'
MANIFEST = f'''# Written by tools/rust/generated.py.
[package]
name = "{NAME}"
version = "0.0.0"
edition = "2021"
rust-version = "1.88"
license = "MIT"
description = "The proved sources of this repository, printed as Rust"
publish = false

[features]
default = ["std"]
# Readers and writers of std::io. Without it the crate needs only core and alloc.
std = []
# The libraries of which the programs of this repository are made.
programs = ["std"]
'''
LIB = f'''//! The proved sources of this repository, printed as Rust: see [`proved`].
#![no_std]

pub mod proved;
pub use proved::*;
'''
MODULES = '''//! Cap'n Proto's wire layout: segments, pointers, readers, builders, frames, packing, canonical
//! copies. Each module is a library that is written in Rattle and proved there to do what its
//! contracts say. Here it is printed without contracts and proofs, by `tools/rust/generated.py`. No
//! proof is about the printed text; `support` is written by hand.
//!
//! Some functions have preconditions, which Rattle's callers prove. The doc comments state them, and
//! quote them from the contracts. A call that breaks one may panic or return a wrong result, but is
//! never undefined behavior.
#![allow(dead_code, unexpected_cfgs, unused_imports, unused_labels, unused_variables)]
#![forbid(unsafe_code)]

#[cfg(not(target_pointer_width = "64"))]
compile_error!("the proofs are about 64-bit addresses, so this crate needs a target that has them");

'''


def check_complete(stands_on: dict[str, list[str]]) -> None:
    """Refuses if a library depends on one that the crate lacks."""
    known = LIBRARIES + OF_PROGRAMS + library.OF_TOOLCHAIN
    for name in LIBRARIES + OF_PROGRAMS:
        if lacking := [it for it in stands_on[name] if it not in known]:
            raise NotPrintable(f'{name} depends on {lacking[0]}, which the printed crate lacks')
        if upper := [it for it in stands_on[name] if name in LIBRARIES and it in OF_PROGRAMS]:
            raise NotPrintable(f'{name} depends on {upper[0]}, which is only for programs')


def departures_in(here: pathlib.Path) -> list[pathlib.Path]:
    return [here / f'departures/{it}.txt' for it in DEPARTURES]


def texts_of(top: pathlib.Path, here: pathlib.Path) -> dict[str, dict[str, str]]:
    """The printed files of each library that has code, before their paths are those of a module."""
    departures = Departures(departures_in(here))
    texts = {}
    for name in LIBRARIES + OF_PROGRAMS:
        printed = library.without_contracts(name, library.sources_of(top / 'crates' / name), departures)
        texts[name] = printed
    departures.check_used()
    return {name: it for name, it in texts.items() if any(map(library.has_items, it.values()))}


def files_of(texts: dict[str, dict[str, str]], here: pathlib.Path) -> dict[str, str]:
    """The files of the crate by their path, before rustfmt."""
    files = {'.gitignore': '/target/\n/Cargo.lock\n', 'Cargo.toml': MANIFEST, 'src/lib.rs': LIB}
    for path in sorted((here / 'support').glob('*.rs')):
        files[f'src/proved/support/{path.name}'] = path.read_text(encoding='utf-8')
    for path, text in library.modules(texts):
        files[f'src/proved/{path}'] = text
    declared = [f'{feature}pub mod {name};\n' for name in sorted([*texts, 'support'])
                for feature in ['#[cfg(feature = "programs")]\n' if name in OF_PROGRAMS else '']]
    files['src/proved/mod.rs'] = MODULES + ''.join(declared)
    if unknown := [path for path, text in files.items() if re.search(r'\bunsafe\b(?!_code)', code_of(text)) and path != 'Cargo.toml']:
        raise NotPrintable(f'{unknown[0]} has unsafe code')
    return files


def audit(files: dict[str, str], top: pathlib.Path, here: pathlib.Path) -> Audit:
    """Compares each file with its source. A source without a file is compared with an empty one."""
    audit = Audit(here, departures_in(here))
    for name in LIBRARIES + OF_PROGRAMS:
        sources = library.sources_of(top / 'crates' / name)
        audit.follow(name, {f'{path[:-3]}.rs': (text, files.get(f'src/proved/{library.file_of(name, path)}', '')) for path, text in sources.items()})
    return audit


def code_of(text: str) -> str:
    return re.sub(r'//[^\n]*', '', text)
