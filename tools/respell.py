#!/usr/bin/env python3
"""Brings the repository's own definitions, lemmas and record fields to snake case, and facts to camel case.

usage: respell.py [--check] [ROOT]

It goes over crates/*/{src,specs,proofs}. A name is turned only where it is declared or where the file imports it from one of the
repository's crates; functions, types and fields of src/, modules, constructors, strings and comments of src/ keep their names. Fields of
records of specs/ and proofs/ are turned after a dot, as labels, and in the record's own declaration. It prints names that fall together
and names that a file already has (a function and the definition that its contract cites may share one). Run it once: `_lem` is given by old name.
"""
import collections
import glob
import os
import re
import sys

TOKEN = re.compile(r"--[^\n]*|//[^\n]*|\"(?:[^\"\\]|\\.)*\"|«[^»]*»|[^\s(){}.;,@\"«»\[\]\\]+|[\s\S]")
DECLARED = re.compile(r"(?:(?:abbrev|unfoldable|opaque|private) )*(?:pub )?(?:(?:abbrev|unfoldable|opaque) )*([^\s:(){}.]+)(?: \{[^{}]*\})? :(?: (.*)|$)")
# Where the plain form is another name's: a lemma that would have a definition's name gets `_lem`.
OTHERWISE = {
    "core-weight": "core_weight_lem",
    "cut_short": "cut_short_lem",
    "entry-bytes": "entry_bytes_lem",
    "first-number": "first_number_lem",
    "fresh-size": "fresh_size_lem",
    "got-part": "got_part_lem",
    "in-main": "in_main_lem",
    "in-probation": "in_probation_lem",
    "le-bytes": "le_bytes_lem",
    "main-visits": "main_visits_lem",
    "no-mtu": "no_mtu_lem",
    "not-past": "not_past_lem",
    "pending-after": "pending_after_lem",
    "probation-visits": "probation_visits_lem",
    "refused-by": "refused_by_lem",
    "replies-shown": "replies_shown_lem",
    "row-at": "row_at_lem",
    "row-bytes": "row_bytes_lem",
    "rows-bytes": "rows_bytes_lem",
    "rows-sound": "rows_sound_lem",
    "same_bytes": "same_bytes_lem",
    "same-entry": "same_entry_lem",
    "seq-spent": "seq_spent_lem",
    "some-mtu": "some_mtu_lem",
    "tally-after": "tally_after_lem",
    "touch-says": "touch_says_lem",
    "unexpired-row": "unexpired_row_lem",
    "verified-source": "verified_source_lem",
    "within-funding": "within_funding_lem",
    "rows_before": "rows_before_lem",
    "demoted-at": "demoted_at_lem",
    "place-told": "place_told_lem",
    "row-taken": "row_taken_lem",
    "set-aside": "set_aside_lem",
    "touched-at": "touched_at_lem",
    "with-path": "made_with_path",
}
WORDS = set("record let in elim with data mod use pub abbrev unfoldable unfolding where if then else section variable".split())


def snake(name):
    if name[0].isupper() or not re.search(r"[A-Z-]", name):
        return name
    if not re.match(r"[a-z]", name):
        return name
    out = re.sub(r"(?<=[a-z0-9])([A-Z])", lambda m: "_" + m[1].lower(), name)
    out = re.sub(r"([A-Z])", lambda m: m[1].lower(), out)
    return out.replace("-", "_")


def camel(name):
    return "".join(p[:1].upper() + p[1:] for p in re.split(r"[-_]", name))


def read(path):
    with open(path, encoding="utf-8") as f:
        return f.read()


def signature(lines, at):
    out = [lines[at]]
    for line in lines[at + 1 :]:
        if not line.startswith(" "):
            break
        out.append(line.strip())
    return " ".join(out)


def declared(text):
    """Names declared at the margin, with whether they are facts; and the fields of records, by record."""
    names, fields = {}, {}
    lines = text.split("\n")
    for at, line in enumerate(lines):
        m = re.match(r"(?:pub )?record ([^\s:(){}]+)", line)
        if m:
            for inner in lines[at + 1 :]:
                if inner and not inner.startswith(" "):
                    break
                f = re.match(r" +(?:pub )?([^\s:(){}.]+) : ", inner)
                if f and not inner.lstrip().startswith("--"):
                    fields[f[1]] = m[1]
            continue
        if re.match(r"(pub )?(data|use|mod|ruleset|syntax)\b", line) or line.startswith(("--", " ")):
            continue
        m = DECLARED.match(line)
        if m:
            whole = signature(lines, at)
            names[m[1]] = bool(re.search(r"(→ |: )Type( \d+)?$", whole))
    # in a module or a `where`: lemmas, and constructors with a dash
    for line in lines:
        m = re.match(r" +(?:pub )?([a-z][^\s:(){}.]*)(?: \{[^{}]*\})? :(?: |$)", line)
        if m and m[1] not in fields and m[1] not in names:
            names[m[1]] = False
    return names, fields


def main():
    args = sys.argv[1:]
    check = "--check" in args
    args = [a for a in args if a != "--check"]
    root = args[0] if args else "."
    crates = {os.path.basename(p) for p in glob.glob(f"{root}/crates/*")}
    files = sorted(
        p
        for part, end in (("src", ".rt"), ("specs", ".antt"), ("proofs", ".antt"))
        for p in glob.glob(f"{root}/crates/*/{part}/**/*{end}", recursive=True)
    )
    texts = {p: read(p) for p in files}
    home = {}  # names by module
    facts = {}
    own_fields = {}
    where = collections.defaultdict(set)
    for p, t in texts.items():
        if not p.endswith(".antt"):
            continue
        names, fields = declared(t)
        home[p] = names
        for n, fact in names.items():
            facts[n] = facts.get(n, False) or fact
            where[n].add(p)
        own_fields.update(fields)
    struct_fields = {
        f for p, t in texts.items() if p.endswith(".rt") for f in re.findall(r"(?m)^\s+(?:pub )?(\w+): ", t)
    }

    def new_name(n):
        if n in OTHERWISE:
            return OTHERWISE[n]
        if facts.get(n) and n[0].islower():
            return camel(n)
        return snake(n)

    new_fields = {f: snake(f) for f in own_fields if snake(f) != f and f not in struct_fields}
    together = collections.defaultdict(set)
    for n in facts:
        together[new_name(n)].add(n)
    fell = 0
    for new, olds in sorted(together.items()):
        if len(olds) > 1:
            fell += 1
            print("together:", new, {o: sorted(re.sub(r".*crates/", "", q) for q in where[o])[:4] for o in sorted(olds)})
    changed, clashes = 0, 0
    for p, t in texts.items():
        own = set(home.get(p, {}))
        for m in re.finditer(r"use Rattle\.(\w+)((?:\.[^\s.{;]+)*)\.\{([^}]*)\}", t):
            if m[1] in crates:
                for it in m[3].split(","):
                    it = it.strip()
                    if " as " in it:
                        own.add(it.split(" as ")[0].strip())
                    elif it:
                        own.add(it)
        turn = {n: new_name(n) for n in own if n in facts and new_name(n) != n}
        fresh = set(turn.values())
        is_rt = p.endswith(".rt")
        out = []
        tokens = TOKEN.findall(t)
        for i, tok in enumerate(tokens):
            if tok.startswith(("--", "//", '"', "«")):
                if tok.startswith("--"):
                    # definitions are named in comments too
                    tok = re.sub(r"`([^`]+)`", lambda m: "`" + " ".join(turn.get(w, w) for w in m[1].split(" ")) + "`", tok)
                out.append(tok)
                continue
            before = tokens[i - 1] if i else ""
            if before == ".":
                line = "".join(tokens[max(0, i - 60) : i]).rsplit("\n", 1)[-1]
                qualifier = tokens[i - 2] if i > 1 else ""
                if re.match(r"(pub |ghost )*use ", line):
                    out.append(tok)
                elif qualifier[:1].isupper() and tok in facts and qualifier.isalnum():
                    out.append(new_name(tok))
                else:
                    out.append(new_fields.get(tok, tok))
                continue
            if tok not in turn and not is_rt and (tok in new_fields or re.fullmatch(r"[a-z]+[A-Z]\w*'?", tok)):
                out.append(new_fields.get(tok, snake(tok)))
                continue
            if tok in turn:
                out.append(turn[tok])
                continue
            if tok in fresh and not tok.isspace():
                clashes += 1
                line = t[: sum(map(len, tokens[:i]))].count("\n") + 1
                print(f"has it: {re.sub(r'.*crates/', '', p)}:{line}: {tok}")
            out.append(tok)
        now = "".join(out)
        if now != t:
            changed += 1
            if not check:
                with open(p, "w", encoding="utf-8") as f:
                    f.write(now)
    if check:
        print("fields:", new_fields)
        print("facts:", {n: new_name(n) for n in facts if new_name(n) != n and facts[n]})
    print(f"{changed} files, {fell} fall together, {clashes} clashes, fields {len(new_fields)}")


if __name__ == "__main__":
    main()
