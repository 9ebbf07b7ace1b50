"""The constants of a source file, computed: `const NAME: TYPE = SUM;` of Rust and Rattle with what it takes from other files by `use`,
`#define NAME SUM` and enumerators of C, the fields of tests/rust/numbers.rs. What tests/numbers and tests/declarations share. A sum that
is not understood is an error."""
import re
from pathlib import Path

TABLE, HEADER, EXAMPLE = 'tests/rust/numbers.rs', 'include/coordcache.h', 'tests/c/incident.c'


class Unread(Exception):
    """What stands in a file is not understood."""


def without_comments(text):
    return re.sub(r'//[^\n]*', '', re.sub(r'/\*.*?\*/', '', text, flags=re.S))


def computed(text, value_of):
    """A sum of numbers and names; `as TYPE` does not change a number that fits."""
    names = re.sub(r'\bas\s+[ui](8|16|32|64|size)\b', '', text)
    names = re.sub(r'\b(0x[0-9a-fA-F_]+|\d[\d_]*)(?:[ui](?:8|16|32|64|size))?\b', lambda m: str(int(m[1].replace('_', ''), 0)), names)
    values = re.sub(r'[A-Za-z_][\w:]*', lambda m: str(value_of(m[0])), names)
    if not re.fullmatch(r'[\d\s+*/()-]+', values):
        raise Unread(f'{text.strip()} is no sum of numbers')
    return eval(values.replace('/', '//'))  # digits, signs and brackets alone


def codes_with_widths(text):
    """The rows of tests/rust/numbers.rs' `code::ALL`: a code's name, and the widths of its operands."""
    body = re.search(r'pub const ALL: .*? = \[\n(.*?)\n    \];', text, flags=re.S)
    rows = re.findall(r'\((\w+), &\[([^\]]*)\]\)', body[1]) if body else []
    return [(name, re.findall(r'[^\s,]+', widths)) for name, widths in rows]


def lists_of_fields(text):
    """Of each `fields! { LIST, SIZE: NAME "words" WIDTH; .. }`: the list's name, the size's, and the fields (name, words, width)."""
    for fields, size, body in re.findall(r'^fields! \{ (\w+), (\w+):(.*?)\n\}', text, flags=re.M | re.S):
        yield fields, size, re.findall(r'^ +(\w+) "([^"]+)" ([^;]+);', body, flags=re.M)


def offsets(fields, size):
    """Each field begins where the one before it ends, and the size is where the last ends."""
    end = '0'
    for name, _, width in fields:
        yield name, end
        end = f'{name} + {width}'
    yield size, end


class Constants:
    """Of one file of a tree: names and what they are equal to. A file of Rattle or Rust also has those that its `use` lines name."""

    def __init__(self, root, file, cache=None):
        self.root, self.file = Path(root), file
        self.files = {} if cache is None else cache  # one for each file that was read
        self.files[file] = self
        text = without_comments((self.root / file).read_text())
        # the items of an inline module have its name before theirs
        modules = r'\bmod (\w+) \{\n(.*?)\n\}'
        self.sums = dict(self.items(re.sub(modules, '', text, flags=re.S)))
        for module, body in re.findall(modules, text, flags=re.S):
            self.sums.update({f'{module}::{name}': value for name, value in self.items(body)})
        self.uses = {}
        for path, names in re.findall(r'^\s*(?:pub )?use ([\w:]+)::(\{[^}]*\}|\w+);', text, flags=re.M):
            for name in re.findall(r'\w+', names):
                self.uses[name] = path

    def items(self, text):
        if self.file.endswith(('.h', '.c')):
            yield from re.findall(r'^#define (\w+) (.+)$', text, flags=re.M)
            for body in re.findall(r'\benum\s*\{([^}]*)\}', text):
                yield from re.findall(r'(\w+) = ([^,]+)', body)
        else:
            yield from re.findall(r'\bconst (\w+): (?:u8|u16|u32|u64|usize) = ([^;]+);', text)
            for _, size, fields in lists_of_fields(text):
                yield from offsets(fields, size)
            # types that are arrays, and variants that have a number
            yield from re.findall(r'\btype (\w+) = (\[[^\]]*\]);', text)
            yield from re.findall(r'#\[repr\(transparent\)\]\s*pub struct (\w+)\((\[[^\]]*\])\);', text)
            for enum, body in re.findall(r'\benum (\w+) \{\n(.*?)\n\}', text, flags=re.S):
                yield from ((f'{enum}::{name}', value) for name, value in re.findall(r'(\w+) = ([^,]+),', body))

    def module(self, path):
        """The file of a module's path, as `raw::layout` or `crate::packing`."""
        parts = path.split('::')
        suffix = '.rt' if self.file.endswith('.rt') else '.rs'
        crate = Path('/'.join(Path(self.file).parts[:3 if suffix == '.rt' else 2]))
        if parts[0] not in ('crate', 'super', 'self'):
            crate = Path('crates') / parts[0] / 'src'
        for file in (crate.joinpath(*parts[1:]).with_suffix(suffix) if parts[1:] else crate / ('lib' + suffix),):
            if (self.root / file).is_file():
                return self.files.get(str(file)) or Constants(self.root, str(file), self.files)
        raise Unread(f'{self.file}: there is no module {path}')

    def text(self, name):
        """What a name stands for, and the file in which it stands."""
        if name in self.sums:
            return self.sums[name], self
        if name in self.uses:
            return self.module(self.uses[name]).text(name)
        if '::' in name:
            return self.module(name.rpartition('::')[0]).text(name.rpartition('::')[2])
        raise Unread(f'{self.file} has no {name}')

    def __getitem__(self, name):
        text, where = self.text(name)
        return computed(text, where.__getitem__)

    def sum(self, text):
        return computed(text, self.__getitem__)

    def array(self, text):
        """An array's elements and length, `[u8; ROW]`, or a name for one."""
        where = self
        while not text.startswith('['):
            text, where = where.text(text)
        element, _, length = text[1:-1].partition(';')
        return element.strip(), where.sum(length)


class Spot:
    """A number as it stands in a file: its place there, what it is called, and what it ought to be."""

    def __init__(self, file, name, match, group, wanted):
        self.file, self.name, self.wanted = file, name, wanted
        self.start, self.end = match.span(group)
        self.text = match[group]
        self.found = int(re.sub('[,_]', '', self.text), 0)

    def rewritten(self):
        """What it ought to be, written as the number that stands there."""
        return f'{self.wanted:_}' if '_' in self.text else str(self.wanted)


# a module or an enum, its end; or a constant's name and number: of Rust, of C, a variant or enumerator
SCOPE = r'^(?:pub )?(?:mod|enum) (\w+) \{$|^(\})$'
LITERAL = r'\bconst (\w+): \w+ = (\d[\d_]*);|^#define (\w+) (\d+)\b|\b(\w+) = (\d+)(?=,| \})'


def literals(text):
    """Of each constant of a file that is a number and no sum: its name, and where the number stands, as a match and its group."""
    scope = ''
    for match in re.finditer(f'{SCOPE}|{LITERAL}', text, flags=re.M):
        if match[1] or match[2]:
            scope = f'{match[1]}::' if match[1] else ''
            continue
        group = next(group for group in (4, 6, 8) if match[group])
        yield scope + match[group - 1], match, group
