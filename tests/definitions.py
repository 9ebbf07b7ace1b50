"""The numbers of the definitions, computed without the prover: `abbrev pub NAME : ℕ` with its equation `NAME = SUM`, where a sum is made of
numbers, names of the same file or of its `use` lines, `+ - * / ^`, `max`, `min` and brackets. What tests/numbers writes; its plain run has
the prover compute the same."""
import re

from constants import Unread


class Definitions:
    """Of the specs of crates `rules` and `types` of a tree."""

    def __init__(self, root):
        self.root, self.files = root, {}

    def file(self, module):
        """The file of a module of definitions, and its crate."""
        for crate in ('rules', 'types'):
            path = self.root / f'crates/{crate}/specs/{module}.antt'
            if path.is_file():
                return path, crate
        raise Unread(f'there is no module {module} of definitions')

    def read(self, module):
        """A module's equations of numbers, and for each name that it uses the module that has it."""
        if module not in self.files:
            text = re.sub(r'--[^\n]*', '', self.file(module)[0].read_text())
            sums = re.findall(r'^abbrev pub (\w+) : ℕ\n\1 =(.+(?:\n .+)*)', text, flags=re.M)
            uses = re.findall(r'^use \S+\.(\w+)\.\{([^}]*)\}', text, flags=re.M)
            self.files[module] = dict(sums), {name: used for used, names in uses for name in re.findall(r"[\w']+", names)}
        return self.files[module]

    def number(self, module, name):
        sums, uses = self.read(module)
        if name in sums:
            return self.computed(sums[name], module)
        if name in uses:
            return self.number(uses[name], name)
        raise Unread(f'{module}.{name} is no abbreviation of a number')

    def computed(self, text, module=None):
        """A sum, whose names stand in that module or have theirs before them (`Layout.row_size`)."""
        words = re.findall(r'0x[0-9a-f]+|\d+|[A-Za-z][\w.]*|\S', text)
        value = self.sum(words, module)
        if words:
            raise Unread(f'{text.strip()} is no sum of numbers, at {words[0]}')
        return value

    def sum(self, words, module):
        value = self.product(words, module)
        while words and words[0] in '+-':
            sign, other = words.pop(0), self.product(words, module)
            value = value + other if sign == '+' else max(value - other, 0)
        return value

    def product(self, words, module):
        value = self.power(words, module)
        while words and words[0] in '*/':
            sign, other = words.pop(0), self.power(words, module)
            value = value * other if sign == '*' else value // other
        return value

    def power(self, words, module):
        value = self.atom(words, module)
        if words and words[0] == '^':
            words.pop(0)
            value **= self.power(words, module)
        return value

    def atom(self, words, module):
        word = words.pop(0) if words else 'its end'
        if word == '(':
            value = self.sum(words, module)
            if not words or words.pop(0) != ')':
                raise Unread('a bracket is open')
            return value
        if word in ('max', 'min'):
            first, second = self.atom(words, module), self.atom(words, module)
            return max(first, second) if word == 'max' else min(first, second)
        if word[0].isdigit():
            return int(word, 0)
        if word[0].isalpha() and (module or '.' in word):
            of, _, name = word.rpartition('.')
            return self.number(of or module, name)
        raise Unread(f'{word} is no number')
