#!/usr/bin/env python3
"""Updates what pages quote from the sources: `docs/THEOREM.md`, `docs/REFUSALS.md`, `docs/PROVED.md`, `docs/FORMAT.md`, `docs/TYPED.md`, `docs/RATTLE.md`, the README, and `crates/*/CALLING.md`.

    theorem.py             rewrites each page that differs
    theorem.py --check     says which pages differ. The last line is `N passed, M failed`, which counts pages
    theorem.py --words     counts the words of README.md and docs/*.md, without what is quoted
    theorem.py --call PATH prints the contract of a function, such as `readers::PointerReader::get_struct` or `capnp_canonical_copy_flat`,
                           with all definitions that it rests on, each before those that it cites

A line of a page says what is quoted. The quotation comes after it, and ends with `<!-- end -->`:

    <!-- clauses PATH NAME: LABEL, LABEL -->    the signature of a function and these clauses, or all
    <!-- function PATH NAME -->                 a whole function
    <!-- item PATH NAME -->                     a struct, an enum or a constant
    <!-- definition CRATE MODULE NAME -->       a definition with its comment
    <!-- definitions N -->                      all definitions that the clauses quoted in the sections of part N rest on
    <!-- types N -->                            the types of the program that these definitions and clauses name
    <!-- notation -->                           the notation of these definitions and clauses
    <!-- count N -->                            what a reader has to read: the number of definitions and of their lines; without N, of both parts
    <!-- tries -->                              a table of the tests: how many mutants, vectors, cases and streams there are
    <!-- mutants CRATE -->                      a table of the bugs that are planted in the functions of a crate

The marks `definitions`, `types` and `notation` are for docs/THEOREM.md and docs/REFUSALS.md.
"""
import collections
import functools
import re
import sys

import quoted
from quoted import TOP

PAGE = TOP / 'docs/THEOREM.md'
# The page with the last part.
REFUSALS = TOP / 'docs/REFUSALS.md'
# The sections of the page whose clauses rest on the definitions of a part. A part doesn't repeat those of earlier ones.
PARTS = {'1': ('1', '2', '3'), '2': ('4', '5'), '3': ('6',)}
# The first file of definitions of each part, and the order of files. Files that aren't named come last.
BEGIN = {'1': 'capnp_messages/Messages', '2': 'capnp_format/Forest', '3': 'capnp_messages/Messages'}
ORDER = (
    'capnp_messages/Messages', 'capnp_messages/CanonicalMessages', 'capnp_messages/Roots', 'capnp_words/Meter', 'capnp_pointers/Source',
    'capnp_arena_traits/Limits', 'capnp_arena_traits/Allocations', 'capnp_format/Tree', 'capnp_format/Value', 'capnp_format/Bytes', 'capnp_format/Means',
    'capnp_format/Segments', 'capnp_format/Word', 'capnp_format/Numbers', 'capnp_format/Canonical',
    'capnp_format/Forest', 'capnp_edits/Paths', 'capnp_format/Path', 'capnp_edits/Tasks', 'capnp_edits/Edits', 'callers/Truly', 'capnp_edits/Sources',
    'capnp_allocation/Made', 'capnp_format/Fields', 'capnp_allocation/Fields', 'capnp_in_place/Existing', 'capnp_in_place/Opening', 'capnp_in_place/Widened', 'capnp_builders/Defaults',
    'capnp_builders/Content', 'capnp_copies/Forms',
    'capnp_pointers/Reading', 'capnp_pointers/Outcomes', 'capnp_pointers/Spending', 'capnp_pointers/Wanted', 'capnp_pointers/Faults', 'capnp_pointers/Demands',
    'capnp_pointers/Refusals', 'capnp_pointers/Expected', 'capnp_pointers/Follow', 'capnp_words/Sizes', 'capnp_arena_traits/View', 'capnp_arena_traits/Checks',
)
# The notation of the definitions: the words of the standard library that a line explains, how they are written, what that means.
WORDS = (
    ('ℕ zero', 'ℕ', 'the whole numbers from 0 on, without an upper bound'),
    ('suc', '`suc n`', 'n + 1'),
    ('pred', '`pred n`', 'n - 1, or 0 if n is 0'),
    ('◌+◌', '`a + b`', 'the sum'),
    ('', '`a - b`', 'the difference, or 0 if b is greater than a'),
    ('', '`a * b`', 'the product'),
    ('', '`a / b`', 'the quotient, without a remainder'),
    ('', '`a % b`', 'the remainder of that division'),
    ('', '`a ^ b`', 'a to the power of b'),
    ('max', '`max a b`', 'the greater one of two numbers'),
    ('min', '`min a b`', 'the lesser one of two numbers'),
    ('ℤ', 'ℤ', 'whole numbers with a sign'),
    ('pos', '`pos n`', 'the number n in ℤ'),
    ('negsuc', '`negsuc n`', 'the number -(n + 1) in ℤ'),
    ('Bool true false', '`true`, `false`', 'the two truth values, of type `Bool`'),
    ('', '`a && b`', 'whether both are true'),
    ('', '<code>a &#124;&#124; b</code>', 'whether one of them is true, or both'),
    ('not', '`not a`', 'whether a is false'),
    ('nat_eq', '`nat_eq a b`', 'whether a and b are equal'),
    ('nat_lt', '`nat_lt a b`', 'whether a is less than b'),
    ('nat_le', '`nat_le a b`', 'whether a is at most b'),
    ('if◌then◌else◌', '`if b then x else y`', 'x if b is true, otherwise y'),
    ('List', '`List A`', 'the lists with elements of type A'),
    ('[]', '`[]`', 'the empty list'),
    ('', '`x ∷ xs`', 'the list of x followed by the elements of xs'),
    ('', '`xs ++ ys`', 'the elements of xs followed by those of ys'),
    ('length', '`length xs`', 'the number of elements'),
    ('take', '`take n xs`', 'the first n elements'),
    ('drop', '`drop n xs`', 'all elements except the first n'),
    ('map', '`map f xs`', 'the list of f x for each element x'),
    ('replicate', '`replicate n x`', 'the list of n times x'),
    ('sum', '`sum xs`', 'the sum of the elements'),
    ('sum_by', '`sum_by f xs`', 'the sum of f x for each element x'),
    ('get_or', '`get_or xs i d`', 'the element at index i, counted from 0, or d if there is none'),
    ('set', '`set xs i x`', 'xs with x at index i, or xs if there is no such index'),
    ('slice_get', '`slice_get xs i`', '`Some` of the element at index i, or `None` if there is none'),
    ('slice_set', '`slice_set xs i x`', 'xs with x at index i, or xs if there is no such index'),
    ('slice_index', '`slice_index xs i`', 'the number at index i, or 0 if there is none'),
    ('Option', '`Option A`', 'a value of type A, or none'),
    ('Some', '`Some x`', 'the option with the value x'),
    ('None', '`None`', 'the option without a value'),
    ('is_some', '`is_some o`', 'whether o has a value'),
    ('unwrap_or', '`unwrap_or o d`', 'the value of o, or d if it has none'),
    ('ok_or', '`ok_or o e`', '`Ok` of the value of o, or `Err e` if it has none'),
    ('option_map_or', '`option_map_or f o d`', 'f of the value of o, or d if it has none'),
    ('Result', '`Result A E`', 'an answer of type A, or a refusal of type E'),
    ('Ok', '`Ok x`', 'the answer x'),
    ('Err', '`Err e`', 'the refusal e'),
    ('result_ok', '`result_ok r`', '`Some` of the answer, or `None` for a refusal'),
    ('IfOk', '`IfOk r P`', 'if r is `Ok x`, then P x'),
    ('IfErr', '`IfErr r P`', 'if r is `Err e`, then P e'),
    ('OnOk', '`OnOk r P`', 'if r is an `Ok`, then P'),
    ('OnErr', '`OnErr r P`', 'if r is an `Err`, then P'),
    ('IfSome', '`IfSome o P`', 'if o is `Some x`, then P x'),
    ('IsSomeAnd', '`IsSomeAnd o P`', 'o is `Some x`, and P x'),
    ('IsErrAnd', '`IsErrAnd r P`', 'r is `Err e`, and P e'),
    ('MatchOption', '`MatchOption o P Q`', 'P if o is `None`; Q x if o is `Some x`'),
    ('MatchResult', '`MatchResult r P Q`', 'P x if r is `Ok x`; Q e if r is `Err e`'),
    ('IsOk', '`IsOk r`', 'r is `Ok x` for some x'),
    ('IsTrue', '`IsTrue b`', 'b is true'),
    ('AllByRecursion', '`AllByRecursion P xs`', 'P holds for each element of xs'),
    ('to_le_bytes w32', '`to_le_bytes w32 n`', 'the four bytes of n, the lowest first'),
    ('Appends', '`Appends o p bs`', 'if o is `Some xs`, then p is `Some (xs ++ bs)`'),
    ('sha256', '`sha256 bs`', 'the SHA-256 of these bytes (FIPS 180-4), as the toolchain\'s crate `sha2` defines it'),
    ('from_le_bytes w64', '`from_le_bytes w64 bs`', 'the number with these eight bytes, the lowest first'),
    ('◌≡◌', '`a ≡ b`', 'a equals b'),
    ('', '`a ≢ b`', 'a differs from b'),
    ('', '`a < b`', 'a is less than b'),
    ('', '`a ≤ b`', 'a is at most b'),
    ('', '`P × Q`', 'P and Q'),
    ('◌⊎◌', '`P ⊎ Q`', 'P or Q'),
    ('', '`P → Q`', 'if P, then Q'),
    ('', '`P ↔ Q`', 'P exactly if Q'),
    ('', '`(x : A) → P`', 'P for every x of type A'),
    ('', '`{x : A} → P`', 'the same; calls leave x out'),
    ('', '`(x : A) × P`', 'there is an x of type A with P'),
    ('⊤', '`⊤`', 'the statement that always holds'),
    ('', '`⊥`', 'the statement that never holds'),
    ('', '`Type 0`', 'as the result of a definition: it is a statement. `A : Type 0` is any type'),
    ('', '`λ x. e`', 'the function whose result for x is e'),
    ('', '`f x y`', 'the result of f for x and y'),
    ('', '`let x = e in y`', 'y, in which x is e'),
    ('', '`x.0`', 'the first part of a pair'),
    ('', '`x.1`', 'the second part of a pair'),
    ('', '`x.field`', 'a field of a record or a struct'),
    ('', '`record`', 'named facts, all of which hold; or named values'),
    ('', '`record { a = x }`', 'the record with x as its a'),
    ('', '`record r { a = x }`', 'r with x as its a'),
    ('', '`data`', 'the forms that a value can have, or the ways in which a statement can hold'),
    ('', '`◌`', 'in the name of an operator, the place of an operand'),
    ('', '`_`', 'in an equation, anything'),
    ('', '`abbrev`, `pub`, `unfoldable`, `mutual`, `infixl 10`', 'don\'t change the meaning'),
    ('', '`fn f<A: T>(x: X) -> R`', 'a Rust function, for every type A that has the trait T; in clauses its result is `result`'),
    ('', '`requires { P }`', 'P must hold when the function is called'),
    ('', '`ensures NAME { P }`', 'P holds when the function returns, which is proved. The text refers to it as NAME'),
    ('', '`x`', 'an argument that is passed by value'),
    ('', '`x.old`', 'what the `&mut` x refers to when the call begins'),
    ('', '`x.new`', 'what the `&mut` x refers to when the call ends'),
    ('', '`x.now`', 'what the `&` x refers to'),
    ('Bor', '`Bor A`', 'a reference to an A'),
    ('', '`A.view x`', 'what the type A says about x, under the name `view`'),
    ('', '`⟦<A as T>⟧.view x`', 'the same, for the trait T of A'),
)
MARK = re.compile(r'<!-- (clauses|function|item|definitions|definition|types|notation|count|tries|mutants)\b ?(.*?) ?-->')
END = '<!-- end -->'


@functools.cache
def statements(sections):
    """The clauses that the pages quote in these sections: for each function the lines, and what its file imports."""
    found = []
    for page in PAGE, REFUSALS:
        section = None
        for line in page.read_text(encoding='utf-8').split('\n'):
            if heading := re.match(r'## (\d+)?', line):
                section = heading[1]
            if section in sections and (mark := MARK.fullmatch(line)) and mark[1] == 'clauses':
                function, labels = chosen(mark[2])
                found.append(('\n'.join([*function.signature, *function.chosen(labels)[0]]), function.imports))
    return found


def rests_on(sections, without=frozenset()):
    begin, types, words = set(), set(), set()
    for code, imports in statements(sections):
        more, named, used = quoted.cited(code, imports)
        begin |= more
        types |= named
        words |= used
    found, named, used = quoted.closure(begin, without)
    return found, types | named, words | used


@functools.cache
def parts():
    """The definitions, types and words of each part, without the definitions and types of earlier parts."""
    done, named, found = frozenset(), frozenset(), {}
    for number, sections in PARTS.items():
        definitions_of, types, words = rests_on(sections, done)
        found[number] = definitions_of, types - named, words
        done |= definitions_of
        named |= types
    return found


def in_order(found, number):
    """The definitions in the order in which to read them: by files, from the first file of the part on, and by their lines."""
    first = ORDER.index(BEGIN[number])

    def place(definition):
        name = f'{definition.crate}/{definition.module}'
        return (ORDER.index(name) - first) % len(ORDER) if name in ORDER else len(ORDER), name, definition.line

    return sorted(found, key=place)


def renamed(file, found):
    """A line about the names that a file imports under another name, if its definitions use them."""
    used = set().union(*(quoted.words_in(definition.cites) for definition in found if (definition.crate, definition.module) == file))
    names = [(here, there, module) for here, (_, module, there) in quoted.specs(*file).imports.items() if here != there and here in used]
    names = [f'`{here}` is {origin(module, there)}' for here, there, module in sorted(names)]
    return [f'Here {", ".join(names)}.', ''] if names else []


def origin(module, name):
    """The origin of a name: a type of the program, a variant of one, or a definition."""
    of = module.removesuffix('.TheVariants').split('.')[-1]
    if not module.startswith('declared.'):
        return f'`{name}` of `{of}`'
    return f'`{name}` of the type `{of}`' if module.endswith('.TheVariants') else f'the type `{name}` of the program'


def definitions(number):
    lines, file, inside = [], None, ''
    found = parts()[number][0]
    for definition in in_order(found, number):
        if (definition.crate, definition.module) != file:
            if file:
                lines += ['```', '']
            file = definition.crate, definition.module
            heading = re.sub(r'^-- ?', '', quoted.specs(*file).heading, flags=re.M).replace('\n', ' ')
            lines += [f'### `{definition.crate}/specs/{definition.module}.antt`', '', *([heading, ''] if heading else []), *renamed(file, found), '```antt']
            inside = ''
        else:
            lines.append('')
        if definition.inside != inside:
            lines += [definition.inside] if definition.inside else []
            inside = definition.inside
        lines += definition.text.split('\n')
    return [*lines, '```']


def types(number):
    """The types of the program that a part names, as their files have them. A crate can name one that another exports."""
    lines = ['```rust']
    for file, name in dict.fromkeys((quoted.declared_in(crate, path), path.split('.')[-1]) for crate, path in sorted(parts()[number][1])):
        lines += [*quoted.item(file, name), '']
    return [*lines[:-1], '```']


def notation():
    used = set().union(*(words for _, _, words in parts().values()))
    told = {word for words, _, _ in WORDS for word in words.split()}
    signs = re.compile(r'[◌+\-*/%^<≤≡≢∷↔⊎&|=ℤ]+')
    if untold := sorted(word for word in used - told if not signs.fullmatch(word)):
        raise SystemExit(f'tools/theorem.py: explain these in WORDS: {", ".join(untold)}')
    if unused := sorted(word for word in told - used if not signs.fullmatch(word) and word != 'if◌then◌else◌'):
        raise SystemExit(f'tools/theorem.py: no definition uses these words of WORDS: {", ".join(unused)}')
    return ['| Written | Means |', '|---|---|', *(f'| {written} | {meaning} |' for _, written, meaning in WORDS)]


def length(definitions_found):
    around = {(definition.crate, definition.module, definition.inside) for definition in definitions_found if definition.inside}
    return len(around) + sum(1 for definition in definitions_found for line in definition.code.split('\n') if line.strip())


def count(number):
    found = parts()[number][0]
    files = len({(definition.crate, definition.module) for definition in found})
    what = {'1': 'Parts 1 to 3 rest on these', '2': 'Parts 4 and 5 also rest on these', '3': 'Part 6 also rests on these'}[number]
    return [f'{what} {len(found)} definitions, {length(found):,} lines without comments, from {files} files. Definitions that cite each', 'other count as one.']


def both_counts():
    first, second, _ = (found for found, _, _ in parts().values())
    return [
        f'To judge the claims about copying and testing a whole message, you read {len(first)} [definitions](docs/THEOREM.md#the-definitions-of-parts-1-to-3) with {length(first):,} lines.',
        f'For copies and tests from a pointer inside a message, and for builders, you read [another {len(second)}](docs/THEOREM.md#the-definitions-of-parts-4-and-5) with {length(second):,} lines.',
    ]


def lines_of(pattern, without=''):
    return sum(len(path.read_text(encoding='utf-8').splitlines()) for path in TOP.glob(pattern) if path.name != without)


def tries():
    facts = sum(len(re.findall(r'(?m)^    (?:means|has|lacks|refused) ', path.read_text(encoding='utf-8'))) for path in TOP.glob('crates/outside_facts/specs/*.antt'))
    table = (
        ('mutants: bugs planted in the source, each refused by the prover (`dev/test --every-mutant` tries all)', '`tests/mutants/`', len(list(TOP.glob('tests/mutants/*/*.mutant')))),
        ('mutants that the gate tries', '`tests/mutants/gate.txt`', len((TOP / 'tests/mutants/gate.txt').read_text(encoding='utf-8').split())),
        ('vectors: runs of `layout_tool`, with answers from outside of this repository', '`tests/vectors/`', lines_of('tests/vectors/*.jsonl', 'worked.jsonl')),
        ('vectors that were worked out by hand', '`tests/vectors/worked.jsonl`', lines_of('tests/vectors/worked.jsonl')),
        ('cases: lines of text with calls of readers and builders, and edits', '`tests/cases/`', lines_of('tests/cases/*.jsonl')),
        ('facts from outside: messages whose values, sizes and refusals the checker computes and compares', '`crates/outside_facts/specs/`', facts),
        ('tests in Rust over `generated/rust/`', '`tests/crates/`', sum(path.read_text(encoding='utf-8').count('#[test]') for path in TOP.glob('tests/crates/*/tests/**/*.rs'))),
        ('streams: runs of `capnp_canon`', '`tests/streams/`', lines_of('tests/streams/*.jsonl')),
    )
    return ['| What | Where | How many |', '|---|---|---|', *(f'| {what} | {where} | {number:,} |' for what, where, number in table)]


def mutants(crate):
    """The bugs that are planted in the functions of a crate's root files: for each function what its mutants are called."""
    planted = collections.defaultdict(list)
    for path in sorted(TOP.glob(f'tests/mutants/{crate}/*.mutant')):
        lines = path.read_text(encoding='utf-8').splitlines()
        file, old = (next(it.removeprefix(word) for it in lines if it.startswith(word)) for word in ('file: ', 'old: '))
        before = (TOP / f'crates/{crate}/{file}').read_text(encoding='utf-8').partition(old)[0]
        planted[re.findall(r'\bfn (\w+)', before)[-1]].append(path.stem.replace('isn_t', "isn't").replace('_', ' '))
    return ['| Planted in | Bugs |', '|---|---|', *(f'| `{name}` | {"; ".join(bugs)} |' for name, bugs in sorted(planted.items()))]


def chosen(rest):
    """The function that a mark names, and the labels of the clauses to quote."""
    wanted, _, labels = rest.partition(': ')
    return quoted.function(*wanted.split()), [label.strip() for label in labels.split(',')] if labels else ()


def clauses(rest):
    function, labels = chosen(rest)
    lines, left_out = function.chosen(labels)
    return ['```rust', function.head, *lines, *(['    // and further clauses'] if left_out else []), '```']


def whole(rest):
    return ['```rust', *quoted.function(*rest.split()).text, '```']


def quotation(kind, rest):
    if kind == 'clauses':
        return clauses(rest)
    if kind == 'function':
        return whole(rest)
    if kind == 'definition':
        if not (found := quoted.defining(*rest.split())):
            raise SystemExit(f'no definition {rest}')
        return ['```antt', *found.text.split('\n'), '```']
    if kind == 'item':
        return ['```rust', *quoted.item(*rest.split()), '```']
    return {'definitions': definitions, 'types': types, 'count': count, 'mutants': mutants}[kind](rest) if rest else {'notation': notation, 'tries': tries, 'count': both_counts}[kind]()


def written(text):
    """The text of a page with its quotations as they are in the sources now."""
    lines, left = [], iter(text.split('\n'))
    for line in left:
        lines.append(line)
        if found := MARK.fullmatch(line):
            lines += [*quotation(found[1], found[2]), END]
            for old in left:
                if old == END:
                    break
            else:
                raise SystemExit(f'no {END} after {line}')
    return '\n'.join(lines)


def found_call(path):
    """The public function with a path such as `readers::PointerReader::get_struct`, wherever its file is below the first module, or
    with a name such as `capnp_canonical_copy_flat`, in whatever file."""
    module, *rest = path.split('::')
    if not rest:
        for file in sorted(TOP.glob('crates/*/src/**/*.rt')):
            if re.search(rf'^pub (?:extern "C" )?fn {module}\b', file.read_text(encoding='utf-8'), re.M):
                return quoted.function(file.relative_to(TOP), module)
    for file in sorted([*TOP.glob(f'crates/*/src/{module}.rt'), *TOP.glob(f'crates/*/src/{module}/**/*.rt')]):
        for kept in range(len(rest)):
            try:
                return quoted.function(file.relative_to(TOP), '::'.join(rest[kept:]))
            except SystemExit:
                pass
            if len(rest) - kept == 2 and rest[kept][0].isupper():
                break
    raise SystemExit(f'tools/theorem.py: no function {path}')


def contract(path):
    """The contract of a function, and all definitions that it rests on, each before those that it cites."""
    function = found_call(path)
    yield from (function.head, *function.chosen(())[0])
    waiting, _, _ = quoted.cited('\n'.join([*function.signature, *function.chosen(())[0]]), function.imports)
    waiting = sorted(waiting, key=lambda it: (it.crate, it.module, it.line))
    found = dict.fromkeys(waiting)
    while waiting:
        definition = waiting.pop(0)
        around = [definition.inside] if definition.inside else []
        yield from ('', f'-- {definition.crate}/specs/{definition.module}.antt', *around, *definition.text.split('\n'))
        own = quoted.specs(definition.crate, definition.module)
        more = [it for it in quoted.cited(definition.cites, own.imports, own)[0] if it not in found]
        more.sort(key=lambda it: (it.crate, it.module, it.line))
        found.update(dict.fromkeys(more))
        waiting += more
    yield from ('', f'-- {len(found)} definitions, {length(found):,} lines without comments')


def pages():
    return [page for page in (PAGE, REFUSALS, TOP / 'README.md', TOP / 'docs/PROVED.md', TOP / 'docs/FORMAT.md', TOP / 'docs/TYPED.md', TOP / 'docs/RATTLE.md', *sorted(TOP.glob('crates/*/CALLING.md'))) if page.is_file()]


def prose(text):
    """The number of words of a page, without what this script writes."""
    return len(re.sub(r'<!-- (?:clauses|function|item|definitions?|types|notation|count|tries|mutants)\b.*?<!-- end -->', '', text, flags=re.S).split())


def main():
    if sys.argv[1:2] == ['--call'] and len(sys.argv) == 3:
        print(*contract(sys.argv[2]), sep='\n')
        return 0
    if sys.argv[1:] not in ([], ['--check'], ['--words']):
        sys.exit(__doc__)
    if sys.argv[1:] == ['--words']:
        counts = [(prose(page.read_text(encoding='utf-8')), page) for page in (TOP / 'README.md', *sorted(TOP.glob('docs/*.md')))]
        for words, page in counts:
            print(f'{words:6} {page.relative_to(TOP)}')
        print(f'{sum(words for words, _ in counts):6} words in all')
        return 0
    failed, broken = 0, 0
    for page in pages():
        old = page.read_text(encoding='utf-8')
        try:
            new = written(old)
        except (SystemExit, FileNotFoundError) as error:
            print(f'{page.relative_to(TOP)}: {error}')
            failed, broken = failed + 1, broken + 1
            continue
        if new == old:
            continue
        failed += 1
        if sys.argv[1:] == ['--check']:
            print(f'{page.relative_to(TOP)} differs from the sources: run python3 tools/theorem.py')
        else:
            page.write_text(new, encoding='utf-8')
            print(f'{page.relative_to(TOP)} is updated')
    if sys.argv[1:] == ['--check']:
        print(f'{len(pages()) - failed} passed, {failed} failed')
        return 1 if failed else 0
    return 1 if broken else 0


if __name__ == '__main__':
    sys.exit(main())
