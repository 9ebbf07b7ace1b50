"""Numbers held to the definitions by the prover: each becomes a theorem `definition ≡ number` of a scratch crate over `rules`, proved by
computation or refused by name. What tests/numbers runs."""
import re
import shutil
import subprocess
import tempfile
from pathlib import Path

from constants import Unread

HERE = Path(__file__).resolve().parent.parent
WORK = HERE / 'target' / 'numbers'


class Claim:
    """A number, where it stands, what it is held to, and what that must be equal to: the number itself where nothing else is said."""

    def __init__(self, file, name, value, held, equals=None):
        self.file, self.name, self.value, self.held = file, name, value, held
        self.equals = str(value) if equals is None else equals

    def __str__(self):
        return f'{self.file}: {self.name} is {self.value}'


def specs_of(name):
    """The folder of specs that a definition's module is in, and what the module is called from outside."""
    for crate in ('rules', 'types'):
        if (HERE / f'crates/{crate}/specs/{name}.antt').is_file():
            return HERE / f'crates/{crate}/specs/{name}.antt', f'Rattle.{crate}.specs.{name}'
    if name == 'Held':
        return HERE / 'tests/numbers.antt.in', 'Rattle.numbers.specs.Held'
    raise Unread(f'there is no module {name} of definitions')


def theorems(claims):
    """A file of theorems, one a claim."""
    uses, said = {}, []
    for i, claim in enumerate(claims):
        statement = f'{claim.held} ≡ {claim.equals}'
        unfolded = []
        for module, name in re.findall(r'\b([A-Z]\w*)\.(\w+)', statement):
            file, path = specs_of(module)
            declared = re.search(rf'^(?:  |(unfoldable )?(?:abbrev )?pub ){name} :', file.read_text(), flags=re.M)
            if not declared:
                raise Unread(f'{claim}: there is no definition {module}.{name} to hold it to')
            uses.setdefault(path, set()).add(name)
            if declared[1]:
                unfolded.append(name)
        statement = re.sub(r'\b[A-Z]\w*\.(\w+)', r'\1', statement)
        line = f"unfolding {' '.join(sorted(set(unfolded)))}\n" if unfolded else ''
        said.append(f'-- {claim}\nn{i} : {statement}\n{line}n{i} = refl\n')
    head = 'use Rattle.std.specs.Prelude.{◌+◌, ◌≡◌, refl}\nuse Rattle.std.specs.Prelude.{Some}\n'
    head += ''.join(f"use {path}.{{{', '.join(sorted(names))}}}\n" for path, names in sorted(uses.items()))
    return head + '\n' + '\n'.join(said)


def scratch(place, claims):
    """Makes a repository of `types`, `rules` and the theorems. Of `rules` the definitions alone are checked, whatever is proved of them.
    What rt kept of checks of the same crates is not proved again."""
    lines = dict(re.findall(r'^(\w+):(.*)$', (HERE / 'crates.txt').read_text(), flags=re.M))
    for crate, parts in (('types', ('src', 'specs', 'proofs')), ('rules', ('src', 'specs'))):
        for part in parts:
            shutil.copytree(HERE / 'crates' / crate / part, place / 'crates' / crate / part)
    (place / 'crates.txt').write_text(f"types:{lines['types']}\nrules:{lines['rules']}\nnumbers: rules types\n")
    specs, src = place / 'crates/numbers/specs', place / 'crates/numbers/src'
    specs.mkdir(parents=True)
    src.mkdir()
    (src / 'lib.rt').write_text('#![tactic(auto)]\n\npub fn one() -> u8 {\n    1\n}\n')
    (specs / 'Lib.antt').write_text('pub mod Held\npub mod Claims\n')
    shutil.copy(HERE / 'tests/numbers.antt.in', specs / 'Held.antt')
    (specs / 'Claims.antt').write_text(theorems(claims))


def refused(claims):
    """The claims that the prover refuses, each with what it computed."""
    if shutil.which('rt') is None:
        raise Unread('there is no rt')
    # outside of this repository, where rt ci wants no other
    with tempfile.TemporaryDirectory() as made:
        scratch(Path(made), claims)
        ran = subprocess.run(['rt', 'check'], cwd=Path(made) / 'crates/numbers', capture_output=True, text=True)
    said = ran.stdout + ran.stderr
    WORK.mkdir(parents=True, exist_ok=True)
    (WORK / 'check.log').write_text(said)
    named, others, lines = {}, [], said.splitlines()
    for line, *after in zip(lines, lines[1:] + [''], lines[2:] + ['', '']):
        if m := re.search(r'specs/Claims\.antt:[\d:]+ error: `n(\d+)`', line):
            found = re.search(r'`([^`]+)`\s+\(found\)', '\n'.join([line, *after]))
            named[int(m[1])] = re.split(r'[ .]', found[1])[-1] if found else 'something else'
        elif ' error: ' in line:
            others.append(line)
    if others or (ran.returncode != 0) != bool(named):
        raise Unread('\n'.join(others[:5] or lines[-5:]) + '\ntarget/numbers/check.log has all that rt said')
    return [(claims[i], named[i]) for i in sorted(named)]
