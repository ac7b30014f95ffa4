"""What a printed file says in another way than its source: derives, copies, formatting, `main`, exported functions, names of
Rattle's prelude, paths, and `#[inline]`. Each rule is for the exact forms that the sources have."""
import re

from .source import Source
from .tokens import NotPrintable

# The names that Rattle's prelude has and Rust's doesn't, or has for another type.
PRELUDE = {'Vec': 'std::vec::Vec', 'String': 'std::string::String', 'HostRuntime': 'std::rt::HostRuntime', 'Print': 'std::rt::Print'}
# What is in Rust's `core`, under the same path.
IN_CORE = 'cell', 'cmp', 'convert', 'fmt', 'iter', 'marker', 'mem', 'ops', 'option', 'result', 'slice', 'str'
# The most lines of a function that gets `#[inline]`.
SHORT = 25


def rewrite_derives(s: Source) -> None:
    """Drops `Drop`, which all types of Rust have, and writes out `derive_where` and thiserror's `Error`."""
    for at, _ in s.each('#[derive('):
        opening = at + 3
        names = [it.strip() for it in s.text_of(opening + 1, s.closing(opening)).split(',')]
        kept = [it for it in names if it not in ('Drop', 'Error')]
        if kept == names:
            continue
        if 'Error' in names:
            write_error(s, at)
        if kept:
            s.replace(opening + 1, s.closing(opening), ', '.join(kept))
        else:
            s.remove_lines(at, s.closing(at + 1) + 1)
    for at, end in s.each('#[derive_where(Clone, Copy)]'):
        write_copy(s, at)
        s.remove_lines(at, end)
    for at, end in s.each('use thiserror::Error;'):
        s.remove_lines(at, end)


def write_error(s: Source, derive: int) -> None:
    """Writes `Error` after the type, and `Display` if the type has a message."""
    written = 'impl{generics} core::error::Error for {name}{arguments} {{}}'
    for at, end in s.each('#[error('):
        if derive < at < type_after(s, derive)[3]:
            message = s.tokens[end].text
            if message.count('{') != 1 or '{0}' not in message:
                raise NotPrintable(f'an error\'s message other than one with {{0}}: {message}')
            s.remove_lines(at, s.closing(at + 1) + 1)
            display = ('impl{generics} core::fmt::Display for {name}{arguments} {{\n'
                       '    fn fmt(&self, f: &mut core::fmt::Formatter<\'_>) -> core::fmt::Result {{\n'
                       '        write!(f, ' + message.replace('{', '{{').replace('}', '}}') + ', self.0)\n    }}\n}}\n\n')
            written = display + written
    name, generics, arguments, end = type_after(s, derive)
    s.insert(end, '\n\n' + written.format(name=name, generics=generics, arguments=arguments))


def write_copy(s: Source, derive: int) -> None:
    """Writes `Clone` and `Copy` without bounds on the parameters after the type."""
    name, generics, arguments, end = type_after(s, derive)
    s.insert(end, f'\n\nimpl{generics} Clone for {name}{arguments} {{\n    fn clone(&self) -> Self {{\n        *self\n    }}\n}}'
                  f'\n\nimpl{generics} Copy for {name}{arguments} {{}}')


def type_after(s: Source, at: int) -> tuple[str, str, str, int]:
    """The name, the parameters and the arguments of the struct or enum after `at`, and the index after it."""
    name = s.next(s.find(at, 'struct', 'enum'))
    after = s.next(name)
    generics = ''
    if s.is_at(after, '<'):
        end = s.angle(after)
        generics, after = s.text_of(after, end), s.next(end - 1)
    stop = s.find(after, '{', ';')
    arguments = ', '.join(it.partition(':')[0].strip() for it in generics[1:-1].split(','))
    return s.tokens[name].text, generics, f'<{arguments}>' if arguments else '', (s.closing(stop) if s.is_at(stop, '{') else stop) + 1


def rewrite_clones(s: Source) -> None:
    for at, end in s.each('fn clone(&self) -> Result<Self, AllocError> { Ok(*self) }'):
        indent = s.indent(at)
        s.replace(at, end, f'fn clone(&self) -> Self {{\n{indent}    *self\n{indent}}}')
    if s.has('AllocError') == 1:
        for at, end in s.each('use std::alloc::AllocError;'):
            s.remove_lines(at, end)


def rewrite_formatting(s: Source) -> None:
    for at, end in s.each('fn fmt<W: fmt::Write>(&self, f: &mut fmt::Formatter<W>) -> fmt::Result'):
        s.replace(at, end, 'fn fmt(&self, f: &mut fmt::Formatter<\'_>) -> fmt::Result')


def rewrite_main(s: Source) -> None:
    for at, end in s.each('fn main(rt: HostRuntime)'):
        s.insert(s.find(end, '{') + 1, '\n    let rt = HostRuntime::new();')
        s.replace(at, end, 'fn main()')


def rewrite_exports_to_c(s: Source) -> None:
    """A function that the library for C exports is called from Rust with the same slices."""
    for at, end in s.each('#[unsafe(no_mangle)]'):
        s.remove_lines(at, end)
    for at, end in s.each('pub extern "C" fn'):
        s.replace(at, end, 'pub fn')


def rewrite_devices(s: Source) -> None:
    """What is over the readers and writers of the system, the modules `standard`, needs the feature `std`."""
    for pattern in ('mod standard;', 'pub use standard::'):
        for at, _ in s.each(pattern):
            s.insert(at, '#[cfg(feature = "std")]\n')


def split_imports(s: Source) -> None:
    """Splits `use std::{..};` into imports of one module each, because some are then in `core` and some in the support."""
    for at, end in s.each('use std::{'):
        stop = s.closing(end - 1)
        names = [it.strip() for it in s.text_of(end, stop).split(',') if it.strip()]
        if any(s.is_at(it, '{') for it in range(end, stop)):
            raise NotPrintable('braces in the braces of an import from std')
        s.replace(at, s.find(stop, ';') + 1, '\n'.join(f'use std::{it};' for it in names))


def name_prelude(s: Source) -> None:
    """Imports what Rattle's prelude names, before the first item."""
    text = s.text()
    lines = [f'use {path};\n' for word, path in PRELUDE.items() if s.has(word) and f'use {path};' not in text]
    at = 0
    while at < len(s.tokens) and (s.tokens[at].kind == 'space' or s.tokens[at].text.startswith('//!')):
        at += 1
    if lines:
        s.insert(at, ''.join(lines) + ('' if s.is_at(at, 'use') else '\n'))


def rewrite(s: Source) -> None:
    for step in (rewrite_derives, rewrite_clones, rewrite_formatting, rewrite_main, rewrite_exports_to_c, rewrite_devices,
                 split_imports, name_prelude):
        step(s)


def inline(s: Source) -> None:
    """Adds `#[inline]` to each function of at most SHORT lines after its first one that has no such attribute. Otherwise
    rustc without link-time optimization calls it from each other codegen unit."""
    for at, _ in s.each('fn'):
        if s.tokens[s.next(at)].kind != 'word':
            continue
        stop = end_of_signature(s, at)
        if s.is_at(stop, ';') or s.text_of(at, s.closing(stop)).count('\n') > SHORT:
            continue
        start = at
        while s.is_at(s.back(start), 'pub', 'const', ')'):
            start = s.back(start)
            if s.is_at(start, ')'):
                start = s.opening(start)
        if not re.search(r'#\[(?:inline|cold)\b', s.text_of(s.head(at), at)):
            s.insert(start, f'#[inline]\n{s.indent(start)}')


def end_of_signature(s: Source, at: int) -> int:
    """The index of the `{` or `;` after the signature of the function whose `fn` is at `at`."""
    while not s.is_at(at, '{', ';'):
        at = s.closing(at) + 1 if s.is_at(at, '(', '[') else at + 1
    return at


def rewrite_paths(s: Source, own: str, libraries: dict[str, str], support: dict[str, str]) -> None:
    """Replaces the first name of each path: `crate` by `own`; a library by its module, as `libraries` says; and `std` by `core`
    or by the module that `support` has for the second name. What is private to a crate is private to its module."""
    for at, _ in s.each('::'):
        first, second = at - 1, at + 2
        if first < 0 or s.tokens[first].kind != 'word' or s.is_at(first - 1, ':') and s.is_at(first - 2, ':'):
            continue
        name, module = s.tokens[first].text, s.tokens[second].text
        if name == 'crate':
            s.replace(first, first + 1, own)
        elif name in libraries:
            s.replace(first, first + 1, libraries[name])
        elif name == 'std' and module in support:
            s.replace(first, first + 1, support[module])
        elif name == 'std':
            if module not in IN_CORE:
                raise NotPrintable(f'std::{module} is neither in core nor in the support')
            s.replace(first, first + 1, 'core')
    for at, end in s.each('pub(crate)'):
        if own != 'crate':
            s.replace(at, end, f'pub(in {own})')
