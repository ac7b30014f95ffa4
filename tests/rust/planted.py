#!/usr/bin/env python3
"""Plants bugs in a copy of the printed crate, of the departures and the support, of the printer, of doc comments that state
preconditions, and of the crate capnp_layout, and checks that each is found.

    planted.py [PART..]

PARTs choose some of in_comments, in_crate, in_printer, by_hand and in_layer.

A bug in the crate is found by the sums and, if somebody has written the sums again, by printing again. One in the printer is
found by the texts of texts.txt or by the audit, although the sums are those of the wrong printer. One in a departure or in the
support is found by the sums, and by the tests of by_hand/ if all is printed again. One in a doc comment is found by
preconditions.py. One in what is written by hand in capnp_layout is found by the test of the crate that is named with it. Needs
cargo and rustfmt. The last line is `N passed, M failed`."""
import os
import pathlib
import shutil
import subprocess
import sys
import tempfile

TOP = pathlib.Path(__file__).resolve().parents[2]
MODULES = 'generated/rust/src/proved'
PRINTER = 'tools/rust/printer'
# Each bug: what is wrong, the file, a text that the file has once, and the text in its place.
IN_CRATE = (
    ('a token is dropped', f'{MODULES}/capnp_words/words.rs', 'bytes.len() / 8\n', 'bytes.len()\n'),
    ('a bound is moved', f'{MODULES}/capnp_words/read_limiter.rs', 'left < amount', 'left <= amount'),
    ('operands are swapped', f'{MODULES}/capnp_words/words.rs', 'words - lanes', 'lanes - words'),
    ('another word is read', f'{MODULES}/capnp_words/words.rs', 'let word = &bytes[i..i + 8];', 'let word = &bytes[i + 1..i + 9];'),
    ('a check is left out', f'{MODULES}/capnp_pointers/nesting.rs', 'nesting_limit.max(0) as u32', 'nesting_limit as u32'),
    ('another refusal', f'{MODULES}/capnp_arena/arena/null_allocator.rs', 'Err(ErrorKind::AllocationFailed)', 'Err(ErrorKind::UnknownPointerType)'),
    ('a departure is changed', f'{MODULES}/capnp_arena/arena/builder_arena_impl.rs', 'if let Some((mut allocator, listed, apart)) = self.take_apart()', 'if let Some((mut allocator, apart, listed)) = self.take_apart()'),
    ('unsafe code is allowed', f'{MODULES}/mod.rs', '#![forbid(unsafe_code)]\n', ''),
    ('32 bits are allowed', f'{MODULES}/mod.rs', '#[cfg(not(target_pointer_width = "64"))]', '#[cfg(target_pointer_width = "16")]'),
    ('the support is changed', f'{MODULES}/support/vec.rs', 'self.0.truncate(n);', ''),
    ('a comment lies', f'{MODULES}/capnp_words/read_limiter.rs', 'a refusal charges nothing', 'a refusal charges everything'),
)
IN_PRINTER = (
    ('a ghost item ends too late', f'{PRINTER}/tokens.py', "if text[following] in ';,':\n            return following + 1", "if text[following] in ';,':\n            return text.index('\\n', following + 1) + 40"),
    ('strings of clauses have braces', f'{PRINTER}/tokens.py', '''r'"(?:\\\\.|[^"\\\\])*"|[{}]', re.DOTALL).finditer''', "r'[{}]', re.DOTALL).finditer"),
    ('a clause takes what is before it', f'{PRINTER}/erasing.py', "s.replace(start, end, '' if s.is_at(end, ';') else ' ')", "s.replace(start - 1, end, '' if s.is_at(end, ';') else ' ')"),
    ('each function without a body is a law', f'{PRINTER}/erasing.py', "end = s.match(s.next(name), '() {}')", "end = s.match(s.next(name), '(')"),
    ('another bound goes with Drop', f'{PRINTER}/erasing.py', "start = before\n            while s.tokens[start - 1].kind == 'space':", "start = s.back(before)\n            while s.tokens[start - 1].kind == 'space':"),
    ('results are quoted as preconditions', f'{PRINTER}/erasing.py', "it.text.startswith('requires')", "it.text.startswith('ensures')"),
    ('a copy is another value', f'{PRINTER}/rewriting.py', '''{{\\n{indent}    *self\\n{indent}}}')''', '''{{\\n{indent}    Self::default()\\n{indent}}}')'''),
    ('long functions are inlined', f'{PRINTER}/rewriting.py', 'SHORT = 25', 'SHORT = 250'),
    ('a path leads to another library', f'{PRINTER}/rewriting.py', "s.replace(first, first + 1, libraries[name])", "s.replace(first, first + 1, libraries[min(libraries)])"),
    ('what is private to a crate is public', f'{PRINTER}/rewriting.py', "f'pub(in {own})'", "'pub'"),
    ('numbers lose a digit', f'{PRINTER}/source.py', "''.join(it.text for it in self.tokens)\n\n    def text_of", "''.join(it.text[:-1] if it.kind == 'number' and len(it.text) > 2 else it.text for it in self.tokens)\n\n    def text_of"),
    ('a departure is done twice', f'{PRINTER}/departures.py', 'text = text.replace(it.old, it.new)', 'text = text.replace(it.old, it.new + it.new)'),
    ('a file is left out', f'{PRINTER}/library.py', 'if not erasing.is_of_laws(it)', "if not erasing.is_of_laws(it) and 'zero' not in it"),
)
# Here also the test that fails then.
BY_HAND = (
    ('segments that aren\'t returned', 'a_dropped_arena_returns_each_segment_once_in_order', 'tools/rust/departures/drop.txt', 'deallocate_all(&mut allocator, listed, apart);\n        }\n    }\n}\n\n/// What', 'let _ = (&mut allocator, listed, apart);\n        }\n    }\n}\n\n/// What'),
    ('an error that is forgotten', 'the_error_of_a_device_is_noted', 'tools/rust/departures/io_error.txt', 'self.fault.set(fault.as_ref().map(same_error));\n', ''),
    ('a list that is cut short', 'lists', 'tools/rust/support/vec.rs', 'self.0.resize(n, value);\n        Ok(())', 'self.0.resize(n.min(999), value);\n        Ok(())'),
    ('another digest', 'digests', 'tools/rust/support/sha2.rs', 'self.held < 56', 'self.held < 57'),
    ('lanes in another order', 'lanes', 'tools/rust/support/simd.rs', 'self.0[0].to_le_bytes()', 'self.0[0].to_be_bytes()'),
)
# In what a doc comment says that its function requires.
SOURCE = 'crates/capnp_words/src/words.rt'
IN_COMMENTS = (
    ('a clause that no sentence states', SOURCE, '/// The word at position `at`. Precondition: `bytes` has at least `at + 1` words.', '/// The word at position `at`.'),
    ('a clause about a parameter that isn\'t named', SOURCE, '/// The `n` words from position `at` on. Precondition: `bytes` has at least `at + n` words.', '/// The `n` words from position `at` on. Precondition: `bytes` has them.'),
    ('a clause that is new', SOURCE, 'pub fn put_word(bytes: &mut [u8], at: usize, word: u64)\n', 'pub fn put_word(bytes: &mut [u8], at: usize, word: u64)\n    requires small { word < 2 ^ 63 }\n'),
    ('two preconditions in the singular', SOURCE, 'Preconditions: the', 'Precondition: the'),
    ('a precondition without a clause', SOURCE, '/// The number of whole words in `bytes`.', '/// The number of whole words in `bytes`. Precondition: there is one.'),
)
LAYER = 'bindings/rust/capnp_layout'
# Each bug, with the file of tests and the test that fails then.
IN_LAYER = (
    ('the last word of a frame is left out', 'opening', 'all_ways_are_the_same_message', 'opening.rs', '&bytes[TABLE..size]', '&bytes[TABLE..size - 8]'),
    ('bytes after a frame are let through', 'opening', 'bytes_after_a_message', 'opening.rs', 'more => Err(Reason::TrailingBytes(more).into())', '_ => Ok(message)'),
    ('a check without the traversal limit', 'limits', 'the_least_limits', 'message.rs', 'ReadLimiter::new(Some(self.limits.words))', 'ReadLimiter::new(None)'),
    ('a level too many', 'limits', 'the_least_limits', 'message.rs', 'i32::from(self.depth.min(Self::MAX_DEPTH))', 'i32::from(self.depth.min(Self::MAX_DEPTH)) + 1'),
    ('more levels than count', 'limits', 'no_limit_ends_the_process', 'message.rs', 'self.depth.min(Self::MAX_DEPTH)', 'self.depth.min(Self::MAX_DEPTH + 1)'),
    ('a digest without its prefix', 'digests', 'digests_after_a_prefix', 'reading.rs', '    hash.update(prefix);\n', '    let _ = prefix;\n'),
    ('the prefix after the words', 'digests', 'digests_after_a_prefix', 'reading.rs', 'hash.update(prefix);\n    hash.update(words);', 'hash.update(words);\n    hash.update(prefix);'),
    ('a canonical message without the prefix', 'digests', 'digests_after_a_prefix', 'message.rs', 'Some(words) => digest_after(prefix, words),', 'Some(words) => digest_after(&[], words),'),
    ('lazy readers charge nothing', 'limits', 'lazy_readers_charge_the_message', 'meter.rs', 'self.0.set(lim.left().unwrap_or(0));', 'let _ = lim;'),
    ('the path names another element', 'limits', 'many_pointers_to_one_list_cost_each_time', 'searching.rs', 'Step::Element(index));', 'Step::Element(index + 1));'),
    ('words that are not in use are handed out', 'building', 'the_same_message_as_capnp_encode_makes', 'growing.rs', 'bytes.truncate(8 * used_words as usize);', 'let _ = used_words;'),
    ('memory grows too late', 'building', 'memory_grows', 'growing.rs', 'if bytes > self.bytes.len() {', 'if bytes > self.bytes.len() + 8 {'),
    ('one element too many', 'building', 'too_many_elements_are_refused', 'builder.rs', 'if elements < MOST &&', 'if elements <= MOST &&'),
    ('a refusal is forgotten', 'building', 'refusals_are_kept', 'builder.rs', 'self.refused.get_or_insert(error);', 'let _ = error;'),
    ('a message is changed after a refusal', 'building', 'refusals_are_kept', 'builder.rs', 'None => Some(&mut self.arena),\n            Some(_) => None,', '_ => Some(&mut self.arena),'),
    ('a number behind the data section is written', 'building', 'fields_that_are_not_there_panic', 'building.rs', 'if offset < numbers {', 'if offset <= numbers {'),
    ('an element behind the list is written', 'building', 'elements_that_are_not_there_panic', 'list_building.rs', 'let is_inside = index < self.len();', 'let is_inside = index <= self.len();'),
    ('a default value is not stored', 'building', 'numbers_of_each_kind', 'building.rs', 'self.set(offset, number.masked(default))', 'self.set(offset, number.masked(number.masked(number)))'),
    ('an element behind the list is read', 'reading', 'indexes_out_of_range', 'list.rs', 'if index < self.len() {', 'if index <= self.len() {'),
    ('elements from behind are off by one', 'reading', 'iterators', 'list.rs', 'self.list.meter, self.end))', 'self.list.meter, self.end - 1))'),
    ('lists of other lengths are equal', 'reading', 'equal_values', 'list.rs', 'self.len() == other.len() && ', ''),
    ('null is taken for a value', 'reading', 'fields_that_are_not_there_are_zero_or_null', 'reading.rs', '!self.raw.is_pointer_field_null(index)', 'self.raw.is_pointer_field_null(index)'),
    ('the name of the next field', 'checking', 'a_refusal_has_path_place_and_field', 'checking.rs', "nth(index as usize)", "nth(index as usize + 1)"),
    ('the path of another pointer', 'checking', 'a_refusal_has_path_place_and_field', 'searching.rs', 'if self.refuses == Some(place) {', 'if self.refuses.is_some() {'),
    ('a check against a schema without the limit', 'checking', 'the_least_limits_of_a_check', 'checking.rs', 'let mut lim = self.limiter();', 'let mut lim = ReadLimiter::new(None);'),
    ('a text that is not UTF-8 is empty', 'reading', 'texts_have_to_be_utf8', 'reading.rs', 'str::from_utf8(bytes).map_err(|_| Reason::TextIsNotUtf8.into())', 'Ok(str::from_utf8(bytes).unwrap_or_default())'),
)


def copy(room):
    """A tree that has what the printer reads and writes, in which nothing but these files can be changed."""
    shutil.copytree(TOP / 'tools/rust', room / 'tools/rust', ignore=shutil.ignore_patterns('__pycache__'))
    shutil.copytree(TOP / 'generated/rust', room / 'generated/rust', ignore=shutil.ignore_patterns('target'))
    shutil.copy(TOP / 'tools/libraries.py', room / 'tools')
    shutil.copytree(TOP / LAYER, room / LAYER, ignore=shutil.ignore_patterns('target'))
    for name in 'crates', 'crates.txt', 'rustfmt.toml':
        (room / name).symlink_to(TOP / name)


def run(room, *words):
    """Whether a script succeeds, and what it prints."""
    done = subprocess.run([sys.executable, '-B', *map(str, words)], cwd=room, stdin=subprocess.DEVNULL, stdout=subprocess.PIPE, stderr=subprocess.STDOUT, encoding='utf-8')
    return done.returncode == 0, done.stdout


def plant(room, path, old, new):
    """Plants a bug; the text of the file before."""
    text = (room / path).read_text(encoding='utf-8')
    if text.count(old) != 1:
        sys.exit(f'planted.py: {path} has {text.count(old)} times {old}')
    (room / path).write_text(text.replace(old, new), encoding='utf-8')
    return text


class Counts:
    passed = failed = 0

    def told(self, is_found, kind, what, by):
        self.passed, self.failed = self.passed + is_found, self.failed + (not is_found)
        print(f'{kind}: {what}: {"found by " + by if is_found else "NOT found by " + by}', flush=True)


def in_crate(room, counts):
    """Plants each of these bugs, then all of them, with sums that somebody has written again."""
    generated = room / 'tools/rust/generated.py'
    for what, *bug in IN_CRATE:
        before = plant(room, *bug)
        counts.told(not run(room, generated, '--sums')[0], 'in the crate', what, 'the sums')
        (room / bug[0]).write_text(before, encoding='utf-8')
    for what, *bug in IN_CRATE:
        plant(room, *bug)
    again = 'import generated as g; (g.TOP / g.ORIGIN).write_bytes(g.origin(g.version_of_rustfmt(), g.printed()[0], g.committed()))'
    run(room / 'tools/rust', '-c', again)
    if not run(room, generated, '--sums')[0]:
        sys.exit('planted.py: the sums aren\'t written again')
    found = run(room, generated, '--check')[1]
    for what, path, *_ in IN_CRATE:
        counts.told(f'{path} isn\'t what the sources are printed as' in found, 'in the crate, with its sum', what, 'printing again')


def in_printer(room, counts):
    """Plants each of these bugs, and prints again: the texts differ, or nothing is written."""
    for what, *bug in IN_PRINTER:
        before = plant(room, *bug)
        by_sums = not run(room, room / 'tools/rust/generated.py', '--sums')[0]
        by_texts = not run(room, TOP / 'tests/rust/texts.py', room / 'tools/rust')[0]
        by_audit = not run(room, room / 'tools/rust/generated.py')[0]
        names = [name for name, found in (('the texts', by_texts), ('the audit', by_audit)) if found]
        counts.told(by_sums and bool(names), 'in the printer', what, ' and '.join(names) or 'the texts and the audit')
        (room / bug[0]).write_text(before, encoding='utf-8')


def by_hand(room, counts):
    """Plants each of these bugs, then all of them, and prints again: the test of each fails."""
    generated = room / 'tools/rust/generated.py'
    for what, _, *bug in BY_HAND:
        before = plant(room, *bug)
        counts.told(not run(room, generated, '--sums')[0], 'by hand', what, 'the sums')
        (room / bug[0]).write_text(before, encoding='utf-8')
    for what, _, *bug in BY_HAND:
        plant(room, *bug)
    if not run(room, generated)[0]:
        sys.exit('planted.py: the bugs by hand aren\'t printed')
    found = run(room, TOP / 'tests/rust/by_hand.py', room / 'generated/rust')[1]
    for what, test, *_ in BY_HAND:
        counts.told(f'\n    {test}\n' in found, 'by hand, printed again', what, f'the test {test}')


def in_comments(_, counts):
    """Plants each of these bugs in a folder that has only this source."""
    for what, path, old, new in IN_COMMENTS:
        with tempfile.TemporaryDirectory(prefix='planted-') as room:
            (pathlib.Path(room) / path).parent.mkdir(parents=True)
            shutil.copy(TOP / path, pathlib.Path(room) / path)
            plant(pathlib.Path(room), path, old, new)
            found = run(room, TOP / 'tests/rust/preconditions.py', room)[1]
        counts.told(found.endswith(' 1 failed\n'), 'in a comment', what, 'the check of preconditions')


def tests_of_layer(room, *words):
    """What tests of the crate capnp_layout print."""
    command = ['cargo', 'test', '--offline', '-j2', '--quiet', *words]
    settings = {**os.environ, 'CARGO_TARGET_DIR': str(room / 'target')}
    done = subprocess.run(command, cwd=room / LAYER, env=settings, stdin=subprocess.DEVNULL, stdout=subprocess.PIPE, stderr=subprocess.STDOUT, encoding='utf-8', errors='replace')
    return done.returncode == 0, done.stdout


def in_layer(room, counts):
    """Plants each of these bugs, and runs its test, which passes without it."""
    is_right, printed = tests_of_layer(room, *(it for name in ('building', 'digests', 'limits', 'opening', 'reading') for it in ('--test', name)))
    if not is_right:
        sys.exit(f'{printed}planted.py: tests of {LAYER} fail without a bug')
    for what, tests, test, path, *bug in IN_LAYER:
        before = plant(room, f'{LAYER}/src/{path}', *bug)
        found = tests_of_layer(room, '--test', tests, '--', '--exact', test)[1]
        counts.told(f'\n    {test}\n' in found, 'in capnp_layout', what, f'the test {test}')
        (room / LAYER / 'src' / path).write_text(before, encoding='utf-8')


PARTS = {it.__name__: it for it in (in_comments, in_crate, in_printer, by_hand, in_layer)}


def main(names):
    if unknown := [it for it in names if it not in PARTS]:
        sys.exit(f'planted.py: there is no part {" ".join(unknown)}\n\n{__doc__}')
    counts = Counts()
    for part in (PARTS[it] for it in names or PARTS):
        with tempfile.TemporaryDirectory(prefix='planted-') as room:
            copy(pathlib.Path(room))
            part(pathlib.Path(room), counts)
    print(f'{counts.passed} passed, {counts.failed} failed')
    return 1 if counts.failed else 0


sys.exit(main(sys.argv[1:]))
