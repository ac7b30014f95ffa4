#!/usr/bin/env python3
"""Counts the phrases that docs/CONTRIBUTING.md ("Style") tells authors to avoid, in the prose of pages and in the comments of
sources, definitions, proofs and scripts, and compares each count with its limit.

    prose.py            checks every limit
    prose.py PATH..     prints each place with such a phrase in these files or folders

Code spans, code blocks and code itself aren't prose. The last line is `N passed, M failed`: one count for each phrase, which
fails if it occurs more often than its limit. A limit is a tenth of what was there when the style was written down: some
uses are right, such as `behind` a landing pad, and a pattern can't tell them from the others."""
import io
import pathlib
import re
import subprocess
import sys
import tokenize

TOP = pathlib.Path(__file__).resolve().parents[1]
CONDITION = r'(?:there|it|this|that|they|these|those|one|none|nothing|all|both|neither|memory|the (?:\w+ )?\w+) (?:is|are|isn\'t|aren\'t|was|were|has|have|had|does|do|doesn\'t|don\'t|can\'t|fits?|fails?)\b'
# Each phrase with its limit, and the pattern that finds it.
PHRASES = {
    'where (for a condition)': (67, rf'\bwhere {CONDITION}'),
    'behind': (82, r'\bbehind\b(?! (?:(?:a|the|its|one|two|that|this|both|each|another|no) )?(?:(?:single|far|double-far|landing|old|new|first|second) )*(?:pads?|landing|far pointers?|pointers?|references?|borrows?|bound|`&))'),
    'stands, stand': (69, r'\bstands?\b(?! for\b)'),
    'so many, so large': (29, r'\bso (?:many|large|few|long)\b(?! (?:as|that)\b)'),
    'is no .., is none': (14, r'(?<!there )\b(?:is|are|was|were) (?:no|none)\b'),
    'gives': (25, r'\bgives\b'),
    'is taken, are taken': (19, r'\b(?:is|are|was|were|be|been) taken\b'),
    'is made zero, becomes zero': (5, r'\b(?:is|are|was|were) made zero\b|\bbecomes? zero\b|\bmakes? \w+ zero\b'),
    'lies, lie': (22, r'\blies?\b'),
    'that is built': (6, r'\b(?:message|messages) that (?:is|are) built\b'),
    'else': (14, r'(?<!or )(?<!thing )(?<!one )(?<!body )(?<!what )(?<!where )\belse\b'),
    'refused by the name': (9, r'\bby (?:the|that|a|its|this) name\b'),
    'one behind the other': (12, r'\bone (?:behind|inside) the other\b'),
    'is to be': (3, r'\b(?:is|are|was|were) to be\b'),
    'asked for': (8, r'\basked for\b'),
    'alone': (13, r'(?<!stands )\balone\b'),
    'is said of, says of': (8, r'\bsa(?:id|ys?) of\b'),
    'of which': (12, r'\bof (?:which|whose|whom)\b'),
    'anew': (8, r'\banew\b'),
    'as it stands': (6, r'\bas (?:it|they) stands?\b'),
    'want of': (7, r'\bwant of\b|\bfor want\b'),
    'hands on, is handed': (4, r'(?<!by )(?<!at )(?<!on )(?<!other )(?<!of )\bhand(?:s|ed)?\b(?![- ](?:side|made|written))'),
    'is met, is covered': (4, r'\b(?:is|are|was|were) (?:met|covered)\b'),
    'looked at': (6, r'\blooked at\b'),
    'but for': (3, r'\bbut for\b'),
    'besides, beside': (9, r'\bbesides?\b'),
    'whoever, whatever': (11, r'\b(?:whoever|whatever|whichever)\b'),
    ', as ..': (22, r', as (?!if\b|an? |well\b|in\b|of\b|the \w+ of\b)\w+'),
}
COMMENT = {'.rt': '//', '.rs': '//', '.antt': '--', '.c': '//', '.h': '//', '.hpp': '//', '.cpp': '//', '.c++': '//', '.js': '//', '.sh': '#', '.bash': '#', '': '#', '.toml': '#', '.txt': '#'}
LEFT_OUT = re.compile(r'(?:^|/)(?:out|generated)/|^LICENSE$|^HANDLES$|\.(?:jsonl|mutant|in|json)$')


def files(within):
    """The tracked files at or below these paths, or all of them."""
    listed = subprocess.run(['git', 'ls-files', '-co', '--exclude-standard', '--', *within], cwd=TOP, stdout=subprocess.PIPE, check=True, encoding='utf-8').stdout
    return [path for path in listed.split('\n') if path and not LEFT_OUT.search(path) and (TOP / path).is_file() and not (TOP / path).is_symlink()]


def of_page(text):
    """The lines of a page, with its code blocks blank and its code spans replaced."""
    text = re.sub(r'^( *)(```|~~~).*?^\1\2', lambda it: '\n' * it[0].count('\n'), text, flags=re.S | re.M)
    return [re.sub(r'``.+?``|`[^`]*`', '`..`', line) if not line.startswith('    ') else '' for line in text.split('\n')]


def of_python(text):
    """The comments and docstrings of a script, line by line."""
    lines = [''] * (text.count('\n') + 2)
    before = None
    for token in tokenize.generate_tokens(io.StringIO(text).readline):
        doc = token.type == tokenize.STRING and before in (None, tokenize.NEWLINE, tokenize.INDENT, tokenize.NL, tokenize.COMMENT)
        if token.type == tokenize.COMMENT or doc:
            for number, line in enumerate(token.string.split('\n')):
                lines[token.start[0] - 1 + number] += ' ' + line
        if token.type not in (tokenize.NL, tokenize.COMMENT, tokenize.DEDENT) or before is None:
            before = token.type
    return [re.sub(r'``.+?``|`[^`]*`', '`..`', line) for line in lines]


def of_source(text, mark):
    """The comments of a source, line by line."""
    if mark == '//':
        text = re.sub(r'/\*.*?\*/', lambda it: '\n'.join('// ' + line for line in it[0].split('\n')), text, flags=re.S)
    found = (re.search(rf'(?:^|\s){re.escape(mark)}(.*)', line) for line in text.split('\n'))
    return [re.sub(r'``.+?``|`[^`]*`', '`..`', it[1]) if it else '' for it in found]


def prose(path):
    """The prose of a file, line by line."""
    suffix = pathlib.PurePath(path).suffix
    try:
        text = (TOP / path).read_text(encoding='utf-8')
    except UnicodeDecodeError:
        return []
    if suffix == '.md':
        return of_page(text)
    if suffix == '.1':
        return text.split('\n')
    if suffix == '.py' or text.startswith('#!/usr/bin/env python3'):
        return of_python(text)
    return of_source(text, COMMENT[suffix]) if suffix in COMMENT else []


def found(paths):
    """Each phrase found in these files, with its place. A phrase may be split over two lines."""
    for path in paths:
        lines = prose(path)
        text, starts = '', []
        for line in lines:
            starts.append(len(text))
            text += re.sub(r'^[ /!*#-]+', '', line.strip()) + ' '
        for name, (_, pattern) in PHRASES.items():
            for hit in re.finditer(pattern, text, re.I):
                number = sum(start <= hit.start() for start in starts)
                yield name, path, number, lines[number - 1].strip()


def main():
    if within := sys.argv[1:]:
        for name, path, number, line in sorted(found(files(within)), key=lambda it: it[1:3]):
            print(f'{path}:{number}: {name}: {line}')
        return 0
    counts = dict.fromkeys(PHRASES, 0)
    for name, *_ in found(files([])):
        counts[name] += 1
    failed = 0
    for name, (limit, _) in PHRASES.items():
        if counts[name] > limit:
            failed += 1
            print(f'`{name}` occurs {counts[name]} times in prose, and may {limit} times: tests/prose.py PATH.. shows where')
    print(f'{len(PHRASES) - failed} passed, {failed} failed')
    return 1 if failed else 0


if __name__ == '__main__':
    sys.exit(main())
