#!/usr/bin/env python3
"""Keeps the names, numbers and words of the refusals the same wherever they stand.

    python3 docs/refusals.py            writes its two parts of include/tealsettle.h anew, then checks
    python3 docs/refusals.py --check    only checks: a line for each problem, and exit status 1 if there is one

crates/base/src/refusal.rt has the reasons and their numbers, docs/REFUSALS.md the words that say what each means. The parts of
the header are an enum of the names and a function that gives the words; each stands between two comments.

Checked: the page and crates/base/specs/Refusal.antt have the names and numbers of refusal.rt, in its order; no number
has two names; the words can stand in a string of C, in one line; the header's parts are what would be written; and in
crates/*/src and crates/*/specs a refusal has its name, not a bare number.
"""
import re
import sys
from pathlib import Path

ROOT = Path(__file__).resolve().parent.parent
CODE = ROOT / 'crates' / 'base' / 'src' / 'refusal.rt'
DEFINITIONS = ROOT / 'crates' / 'base' / 'specs' / 'Refusal.antt'
PAGE = ROOT / 'docs' / 'REFUSALS.md'
HEADER = ROOT / 'include' / 'tealsettle.h'
STOPS = range(10, 13)
WIDTH = 120

IN_CODE = re.compile(r'^    (\w+) = (\d+),$', re.M)
IN_DEFINITIONS = re.compile(r'^number_of (\w+) = (\d+)$', re.M)
IN_PAGE = re.compile(r'^\| (?P<number>\d+) \| `(?P<name>\w+)` \| (?P<meaning>.+?) \| .+ \|$', re.M)

# The parts of the header: the comment before each, what is written, and the comment after it.
ENUM = re.compile(r'(^/\* refusals: .*?\*/\n)(.*?)(^/\* end of refusals \*/$)', re.M | re.S)
WORDS = re.compile(r'(^/\* words: .*?\*/\n)(.*?)(^/\* end of words \*/$)', re.M | re.S)
WORDS_START = '''\
/* The words of a refusal or a stop: what `number` of any answer means, in a few words. Never null: 0 and numbers that
 * are none have words too. */
TEALSETTLE_MUST_USE
static inline const char *tealsettle_refusal_words(uint32_t number)
{
    switch (number) {
'''

# What are no refusals of the library's calls, but answers of the loop above them, which is plain C.
UPDATES = (
    ('case TEALSETTLE_ABANDONED', "the run was abandoned: a function of the flash's driver failed or is missing, or ended it"),
    ('case TEALSETTLE_OTHER_PLACE', "segment 1 of the chip does not name the update place that was given: nothing is written"),
)

# A bare number: in a struct or a comparison of the code. In a definition a refused answer takes a reason, so no number can stand there.
BARE = re.compile(r'\bnumber: (?!0\b)\d+|\bnumber [!=]= (?!0\b)\d+')


def read(path):
    return path.read_text(encoding='utf-8')


def shown(path):
    return path.relative_to(ROOT).as_posix()


# ---- names and numbers, in the order in which each file has them

def pairs(found):
    return [(name, int(number)) for name, number in found]


def snake(name):
    """The page's and the header's name of a reason: BadChipLength is BAD_CHIP_LENGTH there."""
    return re.sub(r'(?<!^)([A-Z])', r'_\1', name).upper()


def reasons(found):
    return [(snake(name), number) for name, number in pairs(found)]


def code():
    return reasons(IN_CODE.findall(read(CODE)))


def definitions():
    return reasons(IN_DEFINITIONS.findall(read(DEFINITIONS)))


def page():
    return pairs((row['name'], row['number']) for row in IN_PAGE.finditer(read(PAGE)))


def meanings():
    return {row['name']: row['meaning'] for row in IN_PAGE.finditer(read(PAGE))}


# ---- the parts of the header

def c_name(name, number):
    return f'TEALSETTLE_{"STOPPED" if number in STOPS else "REFUSED"}_{name}'


def enum_text(names):
    lines = (f'    {c_name(name, number)} = {number},\n' for name, number in names)
    return 'enum {\n' + ''.join(lines) + '};\n'


def case(label, words):
    return f'    {label}:\n        return "{words}";\n'


def words_text(names):
    told = meanings()
    cases = (case(f'case {c_name(name, number)}', told.get(name, '')) for name, number in names)
    none, unknown = case('case 0', 'neither refused nor stopped'), case('default', 'no refusal or stop has this number')
    return WORDS_START + none + ''.join(cases) + ''.join(case(*each) for each in UPDATES) + unknown + '    }\n}\n'


PARTS = ((ENUM, enum_text), (WORDS, words_text))


def write_header(names):
    header = read(HEADER)
    for part, text in PARTS:
        header = part.sub(lambda found: found[1] + text(names) + found[3], header)
    HEADER.write_text(header, encoding='utf-8')


# ---- the checks

def without(some, others):
    return ', '.join(f'{name} {number}' for name, number in some if (name, number) not in others)


def check_same(path, found, expected):
    if found != expected:
        lacks, besides = without(expected, found), without(found, expected)
        difference = f'it lacks {lacks or "none"}, and has besides {besides or "none"}'
        yield f'{shown(path)}: not as in {shown(CODE)}: {difference if lacks or besides else "another order"}'


def check_numbers(names):
    numbers = [number for _, number in names]
    if len(set(numbers)) < len(numbers):
        yield f'{shown(CODE)}: a number has two names'


def check_definitions(names):
    yield from check_same(DEFINITIONS, definitions(), names)


def check_words():
    for name, words in meanings().items():
        if max(map(len, case('', words).splitlines())) > WIDTH or re.search(r'["\\\\`]|[^ -~]', words):
            yield f'{shown(PAGE)}: {name}: its words are too long for a line of C, or have a character that a string may not have'


def check_header(names):
    for part, text in PARTS:
        found = part.search(read(HEADER))
        if not found or found[2] != text(names):
            yield f'{shown(HEADER)}: {text.__name__} is not what would be written; run python3 docs/refusals.py'


def bare_numbers(path):
    text = read(path)
    for found in BARE.finditer(text):
        line = text.count('\n', 0, found.start()) + 1
        yield f'{shown(path)}:{line}: a bare number, not a name: {found[0]}'


def check_bare():
    for path in sorted((*ROOT.glob('crates/*/src/**/*.rt'), *ROOT.glob('crates/*/specs/**/*.antt'))):
        yield from bare_numbers(path)


def check(names):
    yield from check_numbers(names)
    yield from check_same(PAGE, page(), names)
    yield from check_definitions(names)
    yield from check_words()
    yield from check_header(names)
    yield from check_bare()


def main():
    names = code()
    # A header without its words would be worse than the old one.
    if '--check' not in sys.argv[1:] and page() == names:
        write_header(names)
    problems = list(check(names))
    print('\n'.join(problems) or f'refusals: {len(names)} numbers and their words, the same in code, definitions, header and page')
    return 1 if problems else 0


if __name__ == '__main__':
    sys.exit(main())
