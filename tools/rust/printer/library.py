"""Prints libraries of this repository as modules, and programs as crates over them."""
from __future__ import annotations

import pathlib
import re
from typing import Iterator

from . import erasing, rewriting
from .departures import Departures
from .source import Source
from .tokens import NotPrintable

# The module that has all printed modules.
ROOT = 'crate::proved'
# The modules of support/: those that the sources call `std::NAME`, and those that they call NAME.
SUPPORT = {'std': ('alloc', 'io', 'simd', 'string', 'vec'), '': ('hex', 'sha2')}
# The libraries whose functions get `#[inline]` if they are short: those that readers and builders call for each field.
INLINED = ('capnp_words', 'capnp_arena_traits', 'capnp_arena', 'capnp_allocation', 'capnp_in_place', 'capnp_pointers', 'capnp_readers',
           'capnp_builders', 'typed_messages', 'typed_reading', 'typed_conforming', 'typed_building')
# The libraries of the toolchain that have a module of support/, or whose derives are written out.
OF_TOOLCHAIN = *SUPPORT[''], 'thiserror'


def sources_of(folder: pathlib.Path) -> dict[str, str]:
    """The sources of a crate that have more than laws, by their path below `src`."""
    paths = sorted(it.relative_to(folder / 'src').as_posix() for it in (folder / 'src').rglob('*.rt'))
    return {it: (folder / 'src' / it).read_text(encoding='utf-8') for it in paths if not erasing.is_of_laws(it)}


def without_contracts(name: str, sources: dict[str, str], departures: Departures) -> dict[str, str]:
    """The printed files of a crate by their path in it, before their paths are those of a module."""
    edited, laws = {}, set()
    for path, text in sources.items():
        try:
            edited[path] = s = Source(text)
            laws |= erasing.erase(s)
            rewriting.rewrite(s)
        except NotPrintable as error:
            raise NotPrintable(f'{name}/src/{path}: {error}') from error
    for path, s in edited.items():
        if any(s.has(it) for it in laws):
            erasing.erase_exports(s, laws)
    return {path: departures.apply(f'{name}/{path[:-3]}.rs', s.text().strip('\n') + '\n') for path, s in edited.items()}


def support_of(at: str) -> dict[str, str]:
    """The module that replaces `std` in a path, for each next name of the path."""
    return {it: at for it in SUPPORT['std']}


def with_paths(text: str, own: str, libraries: dict[str, str], support: dict[str, str], short: bool) -> str:
    """The text of a printed file with its final paths, and `#[inline]` on functions if `short` says so."""
    s = Source(text)
    if short:
        rewriting.inline(s)
    rewriting.rewrite_paths(s, own, libraries, support)
    return s.text()


def file_of(name: str, path: str) -> str:
    """The printed file of a source of a library, below the folder of all modules."""
    return f'{name}.rs' if path == 'lib.rt' else f'{name}/{path[:-3]}.rs'


def has_items(text: str) -> bool:
    return any(it.kind not in ('space', 'comment') for it in Source(text).tokens)


def modules(texts: dict[str, dict[str, str]], root: str = ROOT, others: dict[str, str] | None = None, support: str = f'{ROOT}::support',
            ) -> Iterator[tuple[str, str]]:
    """The files of a folder with a module for each of the libraries whose printed files `texts` has: paths and texts. `others`
    has the paths of libraries that are elsewhere."""
    libraries = {**{it: f'{support}::{it}' for it in SUPPORT['']}, **{it: f'{root}::{it}' for it in texts}, **(others or {})}
    for name, files in texts.items():
        if extra := [it for it in files if (stem := re.split('[/.]', it)[-2]) in libraries and stem != name]:
            raise NotPrintable(f'{name} has a module with the name of a library: {extra[0]}')
        for path, text in files.items():
            yield file_of(name, path), with_paths(text, f'{root}::{name}', libraries, support_of(support), name in INLINED)
