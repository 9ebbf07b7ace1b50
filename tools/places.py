#!/usr/bin/env python3
"""The places of docs/DESIGN-PASS.md: where a crate's sources have a form of the older language for which today's has a plainer one.

Usage: tools/places.py [--list] [ROOT]: the counts of each point, or each place with its line; ROOT is a checkout (this one).
A place that is found is not yet one to change: the page says what becomes of each."""
import re
import sys
from collections import defaultdict
from pathlib import Path

# what a sign stands for in one that may differ between twins: a constant, a number, a type of numbers
KINDS = [(r'\b\d[\d_]*(?:u8|u16|u32|u64|usize)?\b|\b0x[0-9a-f_]+\b|b\'.\'', '#'), (r'\b[A-Z][A-Z0-9_]+\b', '#'), (r'(?<=[a-z])_u(?:8|16|32|64)\b', ''),
         (r'\b(?:u8|u16|u32|u64|usize)\b', 'number')]
WORDS = r'[A-Za-z_][A-Za-z0-9_]*|\S'


class Function:
    def __init__(self, path, line, name, head, body):
        self.path, self.line, self.name, self.head, self.body = path, line, name, head, body

    def __str__(self):
        return f'{self.path}:{self.line} {self.name}'

    def shape(self):
        """The function without its name, and with what twins may differ in taken out."""
        text = re.sub(r'\b(?:requires|ensures)\b[^\n]*', '', self.head.replace(self.name, 'f', 1)) + self.body
        for old, new in KINDS:
            text = re.sub(old, new, text)
        return ' '.join(re.findall(WORDS, text))

    def facts(self):
        """The facts that the caller owes, each with the memory's times taken out."""
        found = []
        for clause in re.findall(r'requires(?: \w+)? \{ (.*) \}', self.head):
            depth, start = 0, 0
            for i, sign in enumerate(clause + '×'):
                depth += (sign == '(') - (sign == ')')
                if sign == '×' and depth == 0:
                    found.append(re.sub(r'\.(?:now|old|new)\b', '', clause[start:i].strip()).strip('()'))
                    start = i + 1
        return found

    def parameters(self):
        inside = re.search(r'\((.*?)\)', re.sub(r'\s+', ' ', self.head.split('requires')[0].split('ensures')[0]))
        return [re.sub(r"'\w+ ?|&|mut ", '', p).strip() for p in inside[1].split(',') if ':' in p] if inside else []


def functions(path, text):
    for m in re.finditer(r'^( *)(?:pub(?:\(crate\))? )?(?:extern "C" )?fn (\w+)', text, re.M):
        rest = text[m.start():]
        end = re.search(rf'^{m[1]}\}}$', rest, re.M)
        whole = rest[:end.end()] if end else rest
        brace = re.search(r'^ *\{$|\{$', whole, re.M)
        if brace:
            yield Function(path, text[:m.start()].count('\n') + 1, m[2], whole[:brace.start()], whole[brace.start():])


def enums(path, text):
    for m in re.finditer(r'^(?:pub )?enum (\w+)[^{]*\{(.*?)^\}', text, re.M | re.S):
        variants = re.findall(r'^    (\w+)(\([^)]*\)| \{)?(?: = \d+)?,', re.sub(r'//.*', '', m[2]), re.M)
        yield path, text[:m.start()].count('\n') + 1, m[1], variants


def structs(path, text):
    for m in re.finditer(r'^(?:pub )?struct (\w+)[^{;]*\{(.*?)^\}', text, re.M | re.S):
        yield path, text[:m.start()].count('\n') + 1, m[1], re.findall(r'^    (?:pub )?(\w+): ([^,]+),', m[2], re.M)


def find(root):
    """The places of each point, as text."""
    places = defaultdict(list)
    all_functions, texts = [], {}
    for file in sorted(root.glob('crates/*/src/**/*.rt')):
        path = str(file.relative_to(root))
        text = texts[path] = file.read_text()
        all_functions += functions(path, text)
        # 1: enums of the shape of Option or Result, a flag beside a value, numbers for kinds and refusals
        for where, line, name, variants in enums(path, text):
            payloads = [bool(v[1]) and v[1].count(',') == 0 and v[1] != ' {' for v in variants]
            if 2 <= len(variants) <= 3 and sum(payloads) >= 1 and all(p or not v[1] for p, v in zip(payloads, variants)):
                places['1 enum'].append(f'{where}:{line} {name}')
        for where, line, name, fields in structs(path, text):
            for field, kind in fields:
                if field in ('made', 'refusal', 'removal', 'mtu_mark', 'open', 'found', 'wants_input', 'over', 'only', 'kind', 'source', 'place') and kind in ('bool', 'u8', 'u64', 'Removal'):
                    places['1 flag or number in a field'].append(f'{where}:{line} {name}.{field}')
        for i, line in enumerate(text.split('\n'), 1):
            if re.match(r'(?:pub )?const \w+: (?:u8|u64) = \d{1,2};', line) and not re.search(r'LIMIT|ROWS|DIVISOR|CALLS|BAD_STATES|TIME|\bROOT|PER_ENTRY', line):
                places['1 number for a kind'].append(f'{path}:{i} {line.strip()}')
        # 3: an index counted by hand
        for m in re.finditer(r'^( *)while (.*) \{$', text, re.M):
            places['3 loop'].append(f'{path}:{text[:m.start()].count(chr(10)) + 1} while {m[2]}')
        # 4: comparison, conversion, printing, the lesser of two
        for m in re.finditer(r'^ *(?:pub(?:\(crate\))? )?fn (same_as|from_code|code|lesser|larger|one_more|up_one|same|zeros|order_to|address_before|key_rises|coord_entry_at|hex_digit|digit|stop_code|word|number|last|is_full|is_six)\(|^impl (?:\w+) \{\n(?:.*\n)*?    pub fn reply\(', text, re.M):
            places['4 by hand'].append(f'{path}:{text[:m.start()].count(chr(10)) + 1} {m[1] or "reply"}')
        # 6: an array with a length beside, bytes at an offset
        for where, line, name, fields in structs(path, text):
            if any(kind.startswith('[') for _, kind in fields) and any(field in ('len', 'count') for field, _ in fields):
                places['6 array and length'].append(f'{where}:{line} {name}')
            if {'at', 'bytes'} <= {field for field, _ in fields}:
                places['6 offset and length'].append(f'{where}:{line} {name}')
        # 7: which step to run
        for m in re.finditer(r'^ *(?:if (?:kind|call|code) == |match (?:\w+\.)?(?:code|call|kind|number|first|which|v\[1\]) \{)', text, re.M):
            places['7 switch'].append(f'{path}:{text[:m.start()].count(chr(10)) + 1} {m[0].strip()}')
    for f in all_functions:
        if re.search(r'-> u8$', f.head, re.M) and re.search(r'refusal_of|write_refusal', f.head) or re.search(r'\(self, refusal: u8|, refusal: u8\)|refused: &mut u8', f.head):
            places['1 refusal as a number'].append(str(f))
    # 2: functions that are the same but for their name, constants and types of numbers
    shapes = defaultdict(list)
    for f in all_functions:
        if len(f.shape().split()) > 12:
            shapes[f.shape()].append(f)
    for same in shapes.values():
        if len(same) > 1:
            places['2 twins'] += [f'{f} ({same[0].name})' for f in same]
    # 5: facts of three or more contracts, parameters of three or more functions
    facts, together = defaultdict(list), defaultdict(list)
    for f in all_functions:
        for fact in f.facts():
            facts[fact].append(f)
        p = f.parameters()
        for n in range(2, len(p) + 1):
            together[', '.join(p[:n])].append(f)
    places['5 fact'] = [f'{len(of)} contracts: {fact}' for fact, of in facts.items() if len(of) >= 3]
    longest = {k: v for k, v in together.items() if len(v) >= 3 and not any(o != k and o.startswith(k + ', ') and len(together[o]) == len(v) for o in together)}
    places['5 parameters'] = [f'{len(of)} functions: {k}' for k, of in longest.items()]
    # 8: what is written of the proofs
    answers = list(root.glob('crates/*/proofs/**/Answers.antt'))
    goals = [line for a in answers for line in re.findall(r'^pub [\w-]+ : goal\.', a.read_text(), re.M)]
    places['8 answers'] = goals
    return places


def main():
    words = [w for w in sys.argv[1:] if w != '--list']
    root = Path(words[0] if words else Path(__file__).resolve().parent.parent)
    for point, found in sorted(find(root).items()):
        print(f'{point}: {len(found)}')
        if '--list' in sys.argv and not point.startswith('8'):
            for place in found:
                print('    ' + place)


if __name__ == '__main__':
    main()
