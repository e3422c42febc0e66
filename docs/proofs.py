#!/usr/bin/env python3
"""Keeps docs/CONTRACTS.md and the quoted definitions of docs/PROOFS.md as the source is.

    python3 docs/proofs.py            writes both anew, then checks
    python3 docs/proofs.py --check    only checks: a line for each problem, and exit status 1 if there is one

CONTRACTS.md is wholly made. In PROOFS.md a definition stands between `<!-- definition CRATE/FILE NAME -->` and
`<!-- end -->`. A must-fail edit says in its second line which public calls it shows: `# shows: CALL, CALL`.

Checked: both pages are what they would be now, and no page is too long; every public function of a library has an
`ensures`, or a result whose type says what it promises (`BY_TYPE`), and every public call no `requires` and two must-fail edits; every theorem that is stated in specs/ has a proof
of that type among the laws of its crate; every [`name`](file) names something that the
file declares, every edit named in PROOFS.md or REQUESTS.md exists, and every relative link of README.md and docs/*.md leads to a
file or a heading; `specs/` mirrors `src/`: where a module's contracts cite definitions of its own crate there is a
file of definitions of its name; and each function of the static library for C promises what the public call of its name does.
"""
import re
import sys
import textwrap
from itertools import takewhile
from pathlib import Path
from typing import NamedTuple

ROOT = Path(__file__).resolve().parent.parent
README, PROOFS, CONTRACTS = ROOT / 'README.md', ROOT / 'docs' / 'PROOFS.md', ROOT / 'docs' / 'CONTRACTS.md'
REQUESTS = ROOT / 'docs' / 'REQUESTS.md'
LONGEST = {README: 130, PROOFS: 500}
WIDTH = 110

# What is public only so that a crate above can use it: whole crates, modules and functions. These are no calls of the
# library: they may ask something of their caller, and CONTRACTS.md has no entry for them.
INTERNAL = (
    'base', 'framing', 'packets', 'scanner', 'fastpath', 'writes::reading', 'writes::next', 'writes::cursor::Cursor::new',
    'writes::cursor::nth_from', 'configreader', 'digits', 'mcsline', 'comparison', 'orders',
    'updater::state::Running', 'effects', 'input',
    'fields', 'pairwriter', 'recordwriter', 'reportlines', 'loadlines', 'results', 'fileresults', 'runresults',
    'hosttexts::result')

# What these promise their result's type says, in a ghost field: no clause says it again.
BY_TYPE = ('digits::table::Digits::new',)

# The static library for C. Each of its functions hands its arguments to the public call of its name, in one of the crates
# HOSTS, and has that call's contract in the same words, by the same definitions: `check_for_c` holds it to that. So what
# CONTRACTS.md says of the call and the call's must-fail edits stand for both, and the function has no entry and no edits.
FOR_C = 'tealsettle_c'
HOSTS = ('host', 'hostcounts', 'hostfiles', 'hosttexts')

# Parts of the program that runs the cases. No promise rests on them: they print, and are proved to be safe and to end.
PROGRAM_PARTS = ('caselines', 'caseasks', 'caseanswers', 'chipcases', 'runcases', 'lentcases')

# Theorems that are not stated in a specs/Theorems.antt but at the end of a file that leads up to them.
STATED_IN = {'life': ('OrderList.Demand2', 'Life.Demand3', 'Events.EventsKeep', 'AsOrdered.AsOrdered', 'Built.BuiltDemand3',
                      'Built.BuiltAsOrdered', 'Built.BuiltNamesPlace', 'BenchLife.BenchLives')}

# A function's header ends where its body opens, on a line of its own.
PUBLIC = re.compile(r'^( *)pub (?:extern "C" )?fn (\w+)')
IMPL = re.compile(r'^impl(?:<[^>]*>)? (\w+)')
GHOST_USE = re.compile(r'^ghost use Rattle\.(\w+)\.specs\.([A-Z]\w*)\.\{([^}]*)\};', re.M)
LAWS_USE = re.compile(r'^use Rattle\.(\w+)\.proofs\.Laws\.\{([^}]*)\}', re.M)

# What a clause says: a contract has each on a line of its own, perhaps with a name, in braces.
CLAUSE = re.compile(r'^ *(?:requires|ensures)(?: \w+)? \{ (.*) \}$', re.M)

# A declaration of antt: a type, or a name and its signature. A clause has no colon after the name, so is none.
DECLARES = re.compile(
    r'^( *)(?:(?:unfoldable|abbrev|pub) )*'
    r'(?:(?:data|record) (?P<type>[^\s(){}:]+)|(?P<name>[^\s(){}:]+)(?: \{[^}]*\})? :(?: |$))')
PASSED_ON = re.compile(r'^(?:unfoldable )?pub use [^{]*\{([^}]*)\}', re.M)
PASSED_FROM = re.compile(r'^(?:unfoldable )?pub use Rattle\.(\w+)\.proofs\.(\w+)\.\{([^}]*)\}', re.M)
SIGNATURE = re.compile(r'^pub ([^\s:({]+) : (.*)$', re.M)
TYPE = re.compile(r'^(?:(?:abbrev|unfoldable) )?pub (?:record )?([^\s(){}:]+)(?: .*)? : (?:.* → )?Type \d(?: where)?$', re.M)
ITEM = r'^ *(?:pub(?:\(crate\))? )?(?:extern "C" )?(?:fn|struct|enum|const) {}\b'

SHOWS = re.compile(r'^# shows: (.*)$', re.M)
# No marker stands within a block: without its end one would take what was written by hand with it.
BLOCK = re.compile(r'^<!-- definition (\S+) (\S+) -->\n((?:(?!<!--).*\n)*)<!-- end -->$', re.M)
NAMED_LINK = re.compile(r'\[`([^`]+)`\]\(([^)#\s]+)\)')
LINK = re.compile(r'\]\(([^)\s]+)\)')
EDIT_NAME = re.compile(r'`([a-z]\w*/[a-z]\w*)`')

INTRO = """\
# Contracts

Written by `python3 docs/proofs.py` from the source; a change by hand is lost.

What every public call answers: its contract, the definitions that the contract cites, and the must-fail edits
that the prover refuses because of it. None asks anything of its caller. In a contract `result` is the answer and
`x.now` the bytes that `x` lends to be read; of bytes lent to be written `x.old` are those at the call and `x.new`
those given back; `x.entry` is `x` as it was passed. Where a contract has several clauses each has a name: `answer` is
about the result and `output` about the bytes lent to be written. `Gives numbers result defined`: `result` is the
answer defined, and its number and values, which `numbers` has for each of its cases, are the defined ones. A slice is
shorter than 2^63 bytes: so it is by its type, and a C host must keep to it. [PROOFS.md](PROOFS.md) goes through the
demands, [REQUESTS.md](REQUESTS.md) through the requests, [REFUSALS.md](REFUSALS.md) has the numbers of refusals, and
[include/tealsettle.h](../include/tealsettle.h) the functions for C: crate `tealsettle_c`, the static library, has those
of `host`, `hostcounts`, `hostfiles` and `hosttexts` by their names and with their contracts, word for word. Functions
of the crates between these are for the crates above them and no calls (`INTERNAL` in [proofs.py](proofs.py)).
"""


class Call(NamedTuple):
    """A public function: its name with the crate's and the module's, its file, its header, the comment above it."""
    name: str
    file: Path
    contract: str
    comment: str


class Edit(NamedTuple):
    """A must-fail edit: CRATE/LABEL, its file, what its first line says, and the calls that it shows."""
    label: str
    file: Path
    comment: str
    shows: tuple


class Theorem(NamedTuple):
    """A statement in specs/: its name, its file, what it says in words, and the law that proves it, if there is one."""
    name: str
    file: Path
    comment: str
    proof: str


def read(path):
    return path.read_text(encoding='utf-8') if path.is_file() else ''


def shown(path):
    return path.relative_to(ROOT).as_posix()


def link(name, path):
    """A link from docs/ to what a file declares."""
    return f'[`{name}`](../{shown(path)})'


def joined(parts):
    return [each for part in parts for each in part]


# ---- the source

def library_crates():
    """From the bottom up, as crates.txt has them."""
    names = re.findall(r'^(\w+)(?: staticlib)?:', read(ROOT / 'crates.txt'), re.M)
    return [ROOT / 'crates' / name for name in names if is_library(name)]


def is_library(name):
    return name not in PROGRAM_PARTS and (ROOT / 'crates' / name / 'src' / 'lib.rt').is_file()


def crate_of(file):
    return ROOT / 'crates' / file.relative_to(ROOT / 'crates').parts[0]


def module_of(file):
    """crates/packets/src/trace.rt is packets::trace, and a crate's lib.rt the crate."""
    inside = file.relative_to(crate_of(file) / 'src').with_suffix('').parts
    return '::'.join((crate_of(file).name, *(() if inside == ('lib',) else inside)))


def owner_of(lines, at):
    """The type whose `impl` a line is in."""
    last = next((line for line in reversed(lines[:at]) if line.startswith(('impl', '}'))), '')
    opened = IMPL.match(last)
    return opened.group(1) if opened else None


def comment_above(lines, at):
    above = takewhile(lambda line: line.lstrip().startswith(('//', '#[')), reversed(lines[:at]))
    said = [line.strip(' /') for line in above if not line.lstrip().startswith('#[')]
    # Why a form stays as it is, which comes last, is said to those who read the code.
    return ' '.join(takewhile(lambda line: not line.startswith('Stays:'), reversed(said)))


def header_from(lines, at, indent):
    """The lines of a function up to its body. One without clauses opens its body on its last line."""
    end = at
    while lines[end] != indent + '{' and not lines[end].endswith(' {'):
        end += 1
    last = end if lines[end] == indent + '{' else end + 1
    return textwrap.dedent('\n'.join(lines[at:last]))


def call_at(file, lines, at):
    header = PUBLIC.match(lines[at])
    name = '::'.join(filter(None, (module_of(file), owner_of(lines, at), header.group(2))))
    return Call(name, file, header_from(lines, at, header.group(1)), comment_above(lines, at))


def functions_of(file):
    lines = read(file).split('\n')
    return [call_at(file, lines, at) for at, line in enumerate(lines) if PUBLIC.match(line)]


def is_in(call, names):
    """Whether a function is one of those named, or is inside of one: of a crate, a module or a type."""
    return any(f'{call.name}::'.startswith(f'{name}::') for name in names)


def is_internal(call):
    return is_in(call, INTERNAL)


def modules():
    return joined(sorted((crate / 'src').rglob('*.rt')) for crate in library_crates())


def public_functions():
    return joined(map(functions_of, modules()))


def public_calls():
    return {call.name: call for call in public_functions() if not is_internal(call) and not is_in(call, (FOR_C,))}


def edit_from(file):
    text = read(file)
    first = text.split('\n', 1)[0]
    shows = SHOWS.search(text)
    comment = first[1:].strip() if first.startswith('#') else ''
    return Edit(f'{crate_of(file).name}/{file.stem}', file, comment, tuple(shows.group(1).split(', ') if shows else ()))


def all_edits():
    edits = map(edit_from, sorted(ROOT.glob('crates/*/must-fail/*.edit')))
    return {edit.label: edit for edit in edits}


def brought(crate, module, names):
    """The definitions that one `ghost use` brings: the name used, then the name declared and its file."""
    file = ROOT / 'crates' / crate / 'specs' / f'{module}.antt'
    parts = [name.partition(' as ') for name in names.split(', ')]
    return [(local or name, (name, file)) for name, _, local in parts]


def cited(call):
    """The definitions of this repository's specs/ that a contract names, each with its file."""
    uses = [use for use in GHOST_USE.findall(read(call.file)) if (ROOT / 'crates' / use[0]).is_dir()]
    known = dict(joined(brought(*use) for use in uses))
    # A field is read with a dot before it, so it is not taken for a definition of its name.
    words = re.findall(r'[^\s(){},:]+', ' '.join(CLAUSE.findall(call.contract)))
    return [known[word] for word in dict.fromkeys(words) if word in known]


def offered_laws(crate):
    """The names that proofs/Laws.antt passes on, then those that it declares."""
    text = read(crate / 'proofs' / 'Laws.antt')
    passed = [name for names in PASSED_ON.findall(text) for name in names.split(', ')]
    return passed + re.findall(r'^ *(?:abbrev )?pub ([^\s:({]+) :', text, re.M)


def used_laws():
    """The laws that another crate's proofs name, each with its crate's name."""
    uses = [(file, *use) for file in ROOT.glob('crates/*/proofs/**/*.antt') for use in LAWS_USE.findall(read(file))]
    return {(crate, law) for file, crate, laws in uses if crate != crate_of(file).name for law in laws.split(', ')}


def first_comment(text):
    said = takewhile(lambda line: line.startswith('--'), text.strip('\n').split('\n'))
    return ' '.join(line.lstrip('- ') for line in said)


def stated(file):
    """The types that a file declares, with their comments, but for those that other statements of it are made of."""
    blocks = [block for block in read(file).split('\n\n') if TYPE.search(block)]
    words = [re.findall(r'[^\s(){}:,;]+', re.sub(r'^ *--.*$', '', block, flags=re.M)) for block in blocks]
    named = [(TYPE.search(block).group(1), first_comment(block)) for block in blocks]
    return [(name, said) for name, said in named if sum(name in block for block in words) == 1]


def stated_elsewhere(crate):
    """Those of STATED_IN. What the first of a file is about the file's first lines say, of others the lines above them."""
    parts = [each.split('.') for each in STATED_IN.get(crate.name, ())]
    files = [crate / 'specs' / f'{module}.antt' for module, _ in parts]
    firsts = {file: name for file, (_, name) in reversed(list(zip(files, parts)))}
    return [(name, file, first_comment(read(file)) if firsts[file] == name else comment_of(name, file))
            for file, (_, name) in zip(files, parts)]


def comment_of(name, file):
    return next(said for type_name, said in stated(file) if type_name == name)


def law_types(crate):
    """What proofs/Laws.antt declares and passes on, with the type of each."""
    text = read(crate / 'proofs' / 'Laws.antt')
    types = dict(SIGNATURE.findall(text))
    for source, module, names in PASSED_FROM.findall(text):
        below = dict(SIGNATURE.findall(read(ROOT / 'crates' / source / 'proofs' / f'{module}.antt')))
        types.update((name, below[name]) for name in names.split(', ') if name in below)
    return types


def proof_of(name, types):
    """The law whose type is a statement; where that is about a kind, of one kind."""
    return next((law for law, said in types.items() if said.split(' ')[0] == name and '→' not in said), '')


def theorems_of(crate):
    types, page = law_types(crate), crate / 'specs' / 'Theorems.antt'
    own = [(name, page, said) for name, said in stated(page)]
    return [Theorem(name, file, said, proof_of(name, types)) for name, file, said in own + stated_elsewhere(crate)]


# ---- CONTRACTS.md

def wrapped(text):
    """Prose in lines. A link has no blank in it, so none is broken."""
    return textwrap.wrap(text, WIDTH, break_long_words=False, break_on_hyphens=False)


def anchor(heading):
    """What a heading is linked as: small letters, no punctuation, a hyphen for a blank."""
    return re.sub(r'[^\w -]', '', heading.lower()).replace(' ', '-')


def index_row(call):
    parameters = re.search(r'\((.*?)\)', call.contract, re.S).group(1)
    names = ', '.join(re.findall(r'\bself\b|\w+(?=:)', parameters))
    return f'| [`{call.name}({names})`](#{anchor(call.name)}) | {call.comment} |'


def entry(call, edits):
    by = ', '.join(link(*definition) for definition in cited(call)) or 'no definition of this repository'
    where = wrapped(f'By {by}; in {link(call.name.split("::")[-1], call.file)}.')
    refused = [f'- `{edit.label}`: {edit.comment}' for edit in edits if call.name in edit.shows]
    said = [*wrapped(call.comment), ''] if call.comment else []
    return [f'### `{call.name}`', '', *said, '```', call.contract, '```', *where, '',
            'Refused by the prover:', '', *refused, '']


def in_code(names):
    return ', '.join(f'`{name}`' for name in names) or 'none'


def laws_of(crate, used):
    laws = offered_laws(crate)
    above = [law for law in laws if (crate.name, law) in used]
    spare = in_code(law for law in laws if law not in above)
    where = f'[{crate.name}](../{shown(crate / "proofs" / "Laws.antt")}), cited by crates above:'
    return [where, *wrapped(f'{in_code(above)}.'), *wrapped(f'Stated beside them: {spare}.'), ''] if laws else []


def theorem_row(theorem):
    laws = crate_of(theorem.file) / 'proofs' / 'Laws.antt'
    proof = link(theorem.proof, laws) if theorem.proof else ''
    return f'| {link(theorem.name, theorem.file)} | {theorem.comment} | {proof} |'


def edits_of(crate, edits):
    own = [f'- {link(edit.file.stem, edit.file)}: {edit.comment}' for edit in edits if crate_of(edit.file) == crate]
    return [f'`{crate.name}`, {len(own)}:', '', *own, ''] if own else []


def contracts_page(calls, edits, theorems):
    used, edits, crates = used_laws(), list(edits.values()), library_crates()
    return '\n'.join([
        INTRO, '## The calls', '', '| call | what it answers |', '|---|---|', *map(index_row, calls.values()), '',
        '## The contracts', '', *joined(entry(call, edits) for call in calls.values()),
        '## Theorems', '', 'What is proved beside the contracts: each statement in `specs/`, and its proof.', '',
        '| statement | says | proof |', '|---|---|---|', *map(theorem_row, theorems), '',
        '## The laws', '', 'What a crate offers to those above it beside its contracts.', '',
        *joined(laws_of(crate, used) for crate in crates),
        '## All must-fail edits', '', f'{len(edits)} in all, by crate.', '',
        *joined(edits_of(crate, edits) for crate in crates)])


# ---- the definitions in PROOFS.md

def definition(file, name):
    """The lines that declare a name, up to the blank line after them; none where it is not declared."""
    lines = [*read(ROOT / 'crates' / file).split('\n'), '']
    starts = [at for at, line in enumerate(lines) if name in declared_on(line)]
    return lines[starts[0]:lines.index('', starts[0])] if starts else []


def declared_on(line):
    declared = DECLARES.match(line)
    return (declared.group('type'), declared.group('name')) if declared else ()


def quoted(block):
    file, name, old = block.groups()
    lines = definition(file, name)
    body = '\n'.join([f'{link(name, ROOT / "crates" / file)}:', '', '```', *lines, '```', '']) if lines else old
    return f'<!-- definition {file} {name} -->\n{body}<!-- end -->'


def proofs_page():
    return BLOCK.sub(quoted, read(PROOFS))


# ---- the checks

def check_blocks():
    text = read(PROOFS)
    blocks = BLOCK.findall(text)
    if not text.count('<!-- definition ') == text.count('<!-- end -->') == len(blocks):
        yield f'{shown(PROOFS)}: a definition without its end'
    yield from (f'{shown(PROOFS)}: {file} declares no {name}' for file, name, _ in blocks if not definition(file, name))


def check_lengths():
    for page, longest in LONGEST.items():
        lines = read(page).count('\n')
        if lines > longest:
            yield f'{shown(page)}: {lines} lines, more than {longest}'


def check_contracts():
    for call in public_functions():
        where = f'{shown(call.file)}: {call.name}'
        if not re.search(r'^ *ensures\b', call.contract, re.M) and not is_in(call, BY_TYPE):
            yield f'{where} has no `ensures`'
        if re.search(r'^ *requires\b', call.contract, re.M) and not is_internal(call):
            yield f'{where} has a `requires`'


def check_edits(calls, edits):
    for edit in edits.values():
        if not edit.comment:
            yield f'{shown(edit.file)}: its first line is no comment'
        yield from (f'{shown(edit.file)}: {name} is no public call' for name in edit.shows if name not in calls)


def check_shown(calls, edits):
    showing = joined(edit.shows for edit in edits.values())
    for name in calls:
        if showing.count(name) < 2:
            yield f'{name}: must-fail edits that show it: {showing.count(name)}, fewer than 2'


def check_theorems(theorems):
    for file in sorted(ROOT.glob('crates/*/specs/Theorems.antt')):
        if not stated(file):
            yield f'{shown(file)}: states nothing'
    for theorem in theorems:
        where = f'{shown(theorem.file)}: {theorem.name}'
        if not theorem.proof:
            yield f'{where} is the type of no law of {shown(crate_of(theorem.file) / "proofs" / "Laws.antt")}'
        if not theorem.comment:
            yield f'{where} has no comment'


def mirrored(file):
    """The file of definitions that is named like a module (`UpdatePlace` like `update_place`); that of a crate's lib.rt like the crate."""
    name = crate_of(file).name if file.stem == 'lib' else file.stem
    return crate_of(file) / 'specs' / f'{"".join(word.capitalize() for word in name.split("_"))}.antt'


def cites_own(file):
    definitions = joined(map(cited, functions_of(file)))
    return any(crate_of(spec) == crate_of(file) for _, spec in definitions)


def check_mirror():
    for file in modules():
        if cites_own(file) and not mirrored(file).is_file():
            yield f'{shown(file)}: its contracts cite definitions of its crate, and there is no {shown(mirrored(file))}'


def promise(call):
    """A contract without its blanks and calling convention, and the definitions that it cites."""
    words = call.contract.replace('extern "C" ', '')
    return ''.join(words.split()).replace(',)', ')'), cited(call)


def check_for_c():
    """That the static library has every function for C of the host crates, and no other, each with the same promise."""
    functions = [(call.name.split('::')[-1], call) for call in public_functions()]
    own = {name: promise(call) for name, call in functions if is_in(call, (FOR_C,))}
    hosts = {name: promise(call) for name, call in functions if is_in(call, HOSTS) and name.startswith('tealsettle_')}
    differ = [name for name in sorted({*own, *hosts}) if own.get(name) != hosts.get(name)]
    return [f'crates/{FOR_C}: {name} is not the function of that name in {", ".join(HOSTS)}' for name in differ]


def block_of(lines, name):
    """The indented lines below the declaration of a type."""
    starts = [at for at, line in enumerate(lines) if name in declared_on(line)]
    below = lines[starts[0] + 1:] if starts else []
    return list(takewhile(lambda line: not line.strip() or line.startswith('  '), below))


def declares_antt(text, name):
    """A definition, a law or a type; `Type.field`; or a name that the file passes on."""
    owner, _, field = name.rpartition('.')
    lines = block_of(text.split('\n'), owner) if owner else text.split('\n')
    passed = [each for names in PASSED_ON.findall(text) for each in names.split(', ')]
    return name in passed or any(field in declared_on(line) for line in lines)


def declares(file, name):
    if file.suffix == '.antt':
        return declares_antt(read(file), name)
    if file.suffix == '.rt':
        return bool(re.search(ITEM.format(re.escape(name.split('::')[-1])), read(file), re.M))
    # Of any other file the name is only what the link shows.
    return file.suffix != '.edit' or name == file.stem


def names_on(page):
    links = [(name, page.parent / target) for name, target in NAMED_LINK.findall(read(page))]
    return {(name, file.resolve()) for name, file in links if file.is_file()}


def check_names(page):
    wrong = sorted((name, file) for name, file in names_on(page) if not declares(file, name))
    return [f'{shown(page)}: {shown(file)} declares no {name}' for name, file in wrong]


def leads_somewhere(page, target):
    path, _, heading = target.partition('#')
    file = page.parent / path if path else page
    headings = re.findall(r'^#+ (.*)$', read(file), re.M) if heading and file.suffix == '.md' else []
    return '://' in target or file.exists() and (not heading or heading in map(anchor, headings))


def check_links(page):
    lost = [target for target in LINK.findall(read(page)) if not leads_somewhere(page, target)]
    return [f'{shown(page)}: the link to {target} leads nowhere' for target in dict.fromkeys(lost)]


def check_edit_names(page, edits):
    named = sorted(set(EDIT_NAME.findall(read(page))))
    return [f'{shown(page)}: there is no edit {label}' for label in named if label not in edits]


def check_pages(pages):
    """That what is made is what it would be now."""
    stale = [page for page, text in pages.items() if read(page) != text]
    return [f'{shown(page)}: not as in the source; run python3 docs/proofs.py' for page in stale]


def write_pages(pages):
    for page, text in pages.items():
        page.write_text(text, encoding='utf-8')


def main():
    calls, edits, theorems = public_calls(), all_edits(), joined(map(theorems_of, library_crates()))
    made = {CONTRACTS: contracts_page(calls, edits, theorems), PROOFS: proofs_page()}
    if '--check' not in sys.argv[1:]:
        write_pages(made)
    written = [README, *sorted((ROOT / 'docs').glob('*.md'))]
    problems = [
        *check_pages(made), *check_blocks(), *check_lengths(), *check_contracts(), *check_edits(calls, edits),
        *check_shown(calls, edits), *check_theorems(theorems), *check_mirror(), *check_for_c(),
        *joined(check_edit_names(page, edits) for page in (PROOFS, REQUESTS)), *joined(map(check_names, written)),
        *joined(map(check_links, written))]
    names = set().union(*map(names_on, written))
    print(*problems, sep='\n', end='\n' if problems else '')
    if not problems:
        print(f'docs: {len(calls)} contracts, {len(theorems)} theorems, {len(names)} names, {len(edits)} edits: all as in the source')
    return 1 if problems else 0


if __name__ == '__main__':
    sys.exit(main())
