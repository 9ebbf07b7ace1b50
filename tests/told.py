"""Numbers that are told in words: sentences of documents and comments, the tables of docs/PACKING.md and docs/COMMANDS.md, the packing's
number in the name of its function. For each, where it stands and what the table tests/rust/numbers.rs (for the packing, its function in the
Rattle source) has for it. What tests/numbers holds and, with --write, writes."""
import re

from constants import EXAMPLE, HEADER, TABLE, Constants, Spot, Unread, codes_with_widths, lists_of_fields

PACKING, COMMANDS, SYS = 'docs/PACKING.md', 'docs/COMMANDS.md', 'rust/src/sys.rs'
PACKED = 'crates/coordcache/src/packing.rt'
# what names the packing's function
NAMES_PACKING = (HEADER, SYS, EXAMPLE, PACKING, 'docs/DECISIONS.md')

# sentences, or parts of them, by file; in braces a number by the table's names. A space may be a line's end.
SENTENCES = {
    HEADER: [
        '{refusal::NOT_SOUND} the state is not sound',
        '{refusal::PATH_LENGTH} a path of 0 elements',
        '{refusal::SEQUENCE_USED_UP} the sequence numbers are used up',
        '{refusal::NO_MAIN_ROW} the key is not in main',
        '{refusal::ROW_COUNT} too few rows for max',
        '{refusal::NO_COMMAND} a funding kind over COORD_CACHE_UPTO',
        'Where several hold, {refusal::NO_COMMAND} comes first, then {refusal::ROW_COUNT}, {refusal::NOT_SOUND}, {refusal::PATH_LENGTH}, '
        '{refusal::SEQUENCE_USED_UP}, {refusal::NO_MAIN_ROW}.',
        'and never returns {refusal::NOT_SOUND}.',
        'an address, then sequence and timestamp, {NUMBER} bytes each',
        'outcome (inserted {INSERTED}, changed {CHANGED}, unchanged {UNCHANGED}, rejected {REJECTED})',
        'segment (main {IN_MAIN}, probation {IN_PROBATION})',
    ],
    'rust/src/lib.rs': ['at most {MAX_ROWS} rows, so `max_entries` at most {MOST_ENTRIES}, and a path at most {PLACES} elements.'],
    'rust/src/cache.rs': ['`max_entries` may be up to {MOST_ENTRIES}; more is refused'],
    'rust/src/node_addr.rs': ['The address of a node: {ADDRESS} bytes', 'a slice that has {ADDRESS} bytes', 'a node address has {ADDRESS} bytes, not 40'],
    'rust/src/path.rs': ['The bytes: {ELEMENT} for each element'],
    SYS: ['"address {ADDRESS}, sequence {NUMBER}, timestamp {NUMBER}, little-endian"'],
    'rust/src/refused.rs': [
        '{refusal::NOT_SOUND}: the memory is not a sound cache.',
        '{refusal::PATH_LENGTH}: the path has over',
        '{refusal::SEQUENCE_USED_UP}: the sequence numbers',
        '{refusal::NO_MAIN_ROW}: a verified insert',
        '{refusal::ROW_COUNT}: too few rows',
        '{refusal::NO_COMMAND}: an unknown kind of funding.',
    ],
    PACKING: [
        'a head of {HEAD} bytes, then rows of {ROW} bytes.',
        '(length − {HEAD}) / {ROW} rounded down',
        '| path length, 1 to {PLACES} |',
        '| {PLACES} places: address {ADDRESS}, sequence {NUMBER}, timestamp {NUMBER} |',
        '| MTU mark: {SOME_MTU} if an MTU is held, else {NO_MTU} |',
        '| source: Verified {VERIFIED}, Hint {HINT} |',
        '| place: ByUse {BY_USE}, Parked {PARKED}, Probation {PROBATION} |',
        'of the head and of the row, {HEAD + ROW} in all',
    ],
    COMMANDS: [
        '`coordrun` keeps {COORDRUN_ROWS} rows',
        'addresses as {ADDRESS} bytes',
        'the root last, 1 to {PLACES} of them.',
        'Funding kind {UNCHARGED} is Uncharged',
        'covers every weight; kind {UPTO} is Upto',
        'max({ADDRS_PER_ENTRY}, its number of elements): up to {ADDRS_PER_ENTRY} elements weigh {ADDRS_PER_ENTRY}, {ADDRS_PER_ENTRY + 1} weigh '
        '{ADDRS_PER_ENTRY + 1}, {PLACES} weigh {WEIGHT_LIMIT}.',
        'outcome: {INSERTED} inserted, {CHANGED} changed, {UNCHANGED} unchanged, {REJECTED} rejected',
        'segment: {IN_MAIN} main, {IN_PROBATION} probation',
        'A rejected hint (outcome {REJECTED}) is not refused',
        '| {refusal::NOT_SOUND} | the state is not sound',
        '| {refusal::PATH_LENGTH} | the path has no element, or over {PLACES} were sent | send 1 to {PLACES} elements before an insert; '
        'what is sent over {PLACES} is dropped, the {PLACES} stay pending |',
        '| {refusal::SEQUENCE_USED_UP} | the sequence numbers are used up',
        '| {refusal::NO_MAIN_ROW} | a verified insert of a key that is not in main',
        '| {refusal::ROW_COUNT} | fresh: the memory has too few rows for this max (max and the probation rows, max / {PROBATION_DIVISOR} and at '
        'least 1), or over {MAX_ROWS} | choose a smaller max (at most {COORDRUN_MOST_ENTRIES} in `coordrun`); lend memory of at most {MAX_ROWS} rows |',
        '| {refusal::NO_COMMAND} | the command is unknown, cut, or of a funding kind over {UPTO} |',
    ],
    'docs/DIFFERENCES.md': [
        'A path of no elements, or of over {PLACES}.',
        'a row holds {PLACES} places',
        'at `seq` over {LAST_SEQ}.',
        '`seq {LAST_SEQ + 1}`;',
        'on memory of over {MAX_ROWS} rows',
        'At most {MAX_ROWS} rows.',
    ],
    'docs/DECISIONS.md': [
        'an array of {PLACES} places and a length.',
        'no room for a line ({LINE} characters hold any)',
        '(an address of {ADDRESS} bytes,',
        'whole elements of {ELEMENT} bytes;',
        'A path of over {PLACES} keeps its length',
        'takes all {MAX_ROWS} rows',
    ],
    'README.md': ['on 24 and on {MAX_ROWS} rows', 'fewer than {STAMPS_OF_CALL} stamps'],
    'tests/stream-against-rust': [
        'on --rows rows ({COORDRUN_ROWS});',
        '(at {COORDRUN_ROWS} rows and at {MAX_ROWS}, or at --rows)',
        'key {ADDRESS} bytes, path length {BYTE}, so many places of {ELEMENT}, then the {ROW - CREATED_AT} bytes',
        'has behind the {PLACES} places',
    ],
}
# a space of a sentence: also a line's end, with what begins a line of a comment
SPACE = r'(?:[ \t]|\n[ \t]*(?://[/!]?|\*|#)?)+'


class Worded(Spot):
    """A number in words: thousands have a comma, but where a long one had none."""

    def rewritten(self):
        return f'{self.wanted:,}' if ',' in self.text or len(self.text) <= 3 else str(self.wanted)


def told(root):
    """All numbers that are told, and in words what is wrong beside a number."""
    constants, found = Constants(root, TABLE), []
    for part in (in_sentences, in_packing, in_commands):
        found += part(root, constants)
    found += packings(root)
    return [each for each in found if isinstance(each, Spot)], [each for each in found if not isinstance(each, Spot)]


def in_sentences(root, constants):
    """The numbers of the sentences; one that is worded anew must be worded anew here too."""
    for file, sentences in SENTENCES.items():
        text = (root / file).read_text()
        for sentence in sentences:
            sums = re.findall(r'\{([^}]+)\}', sentence)
            words = [SPACE.join(map(re.escape, part.split(' '))) for part in re.split(r'\{[^}]+\}', sentence)]
            matches = list(re.finditer(r'(?<![\d,])(\d+(?:,\d{3})*)'.join(words), text))
            if not matches:
                yield f'{file}: it no longer says {sentence!r} (tests/told.py)'
            begun = sentence if len(sentence) <= 60 else sentence[:58] + '..'
            for match in matches:
                for group, name in enumerate(sums, 1):
                    yield Worded(file, f'{name} in {begun!r}', match, group, constants.sum(name))


def rows_of(page, heading, row):
    """The rows of the table on a page whose first line begins so."""
    table = re.search(rf'^\| {heading} \|.*\n\|[-|]+\|\n((?:\|.*\n)+)', page, flags=re.M)
    return list(re.compile(row, flags=re.M).finditer(page, *table.span(1))) if table else []


def in_packing(root, constants):
    """Offsets and widths of the tables of docs/PACKING.md; their fields in the table's order, and bytes of the example as wide."""
    page = (root / PACKING).read_text()
    lists = {fields: listed for fields, _, listed in lists_of_fields((root / TABLE).read_text())}
    for whole in ('head', 'row'):
        fields = lists.get(f'{whole.upper()}_FIELDS', [])
        rows = rows_of(page, f'{whole}, from byte', r'^\| ([\d,]+) \| ([\d,]+) \| ([^|]*) \| ([^|]*) \|$')
        if not fields or len(rows) != len(fields):
            yield f'{PACKING}: the {whole} has {len(rows)} fields, in {TABLE} {len(fields)}'
            continue
        for (name, words, width), row in zip(fields, rows):
            yield Worded(PACKING, f'{words} of the {whole}, from byte,', row, 1, constants[name])
            yield Worded(PACKING, f'{words} of the {whole}, bytes,', row, 2, constants.sum(width))
            if words not in re.sub('[`,]', '', row[3]):
                yield f'{PACKING}: {words} of the {whole} is not what stands there: {row[3]}'
            if re.fullmatch('`[0-9a-f ]+`', row[4]) and len(row[4].split()) != constants.sum(width):
                yield f'{PACKING}: {words} of the {whole} is not as wide in the example'


def in_commands(root, constants):
    """The widths of operands in the table of docs/COMMANDS.md; its codes in the table's order."""
    codes = codes_with_widths((root / TABLE).read_text())
    page = (root / COMMANDS).read_text()
    rows = rows_of(page, 'code', r'^\| `(\w\w)` \| ([^|]*) \| ([^|]*)\| (\d+) \|$')
    if len(rows) != len(codes):
        yield f'{COMMANDS}: there are {len(rows)} commands, in {TABLE} {len(codes)}'
        return
    for (name, widths), row in zip(codes, rows):
        sums = [constants.sum(width) for width in widths]
        operands = list(re.compile(r'\b(\d+)(?=,| \|)').finditer(page, row.start(3), row.end(3) + 1))
        byte = constants['code::' + name]
        if int(row[1], 16) != byte or len(operands) != len(sums):
            yield f'{COMMANDS}: code::{name} is {row[1]} with {len(operands)} operands; {TABLE} has {byte:02x} with {len(sums)}'
            continue
        for operand, width in zip(operands, sums):
            yield Worded(COMMANDS, f'an operand of code::{name}', operand, 1, width)
        yield Worded(COMMANDS, f'the width of code::{name}', row, 4, sum(sums))


def packings(root):
    """The packing's number, in the name of its function and on its page."""
    number = re.search(r'fn coord_cache_packing_(\d+)\(', (root / PACKED).read_text())
    if not number:
        raise Unread(f'{PACKED} has no function of the packing')
    for file in NAMES_PACKING:
        matches = list(re.finditer(r'\bcoord_cache_packing_(\d+)\b|This is packing (\d+)\.', (root / file).read_text()))
        if not matches:
            yield f'{file}: it does not name the function of the packing'
        for match in matches:
            yield Spot(file, "the packing's number", match, 1 if match[1] else 2, int(number[1]))
