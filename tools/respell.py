#!/usr/bin/env python3
"""Respells the names that this repository declares in specs/ and proofs/: words in snake case, a dash only between two names.

usage: tools/respell.py [--dry]      at the top of the repository, once, behind port.py

`wordOf` becomes `word_of`, `length-bucket-rows` becomes `length-bucket_rows`, `none-or-each` becomes `none_or_each`. Names of src/,
types, facts (with a capital) and the library's names stay. In proof files that answer generated goals, the goals' names stay.
Also the same names in contracts, comments, edits and documents. Prints names that would fall together, and then writes nothing.
"""
import collections
import pathlib
import re
import subprocess
import sys

ROOT = pathlib.Path(__file__).resolve().parent.parent
# the kit's library, beside the page that `rt doc` names
LIB = pathlib.Path(subprocess.check_output(['rt', 'doc'], text=True).strip()).parent / 'rattle'
TOKEN = re.compile(r"(?<![\w'])[^\W\d][\w'→≤≡↔<-]*")
DECLARED = re.compile(r"(?:^\s*|\blet |[{(] ?|λ )(?:pub |abbrev |unfoldable |axiom )*([^\W\d][\w'→≤≡↔<-]*(?: [^\W\d][\w'→≤≡↔<-]*)*) ?:(?=\s|$)", re.M)
CAMEL = re.compile(r"^[a-z][a-z0-9]*(?:[A-Z][\w']*)$")
# the library's functions, as words of a lemma's name
LIBRARY = set("""length map take drop set sets get_or replicate flat_map append concat cond leb ltb eqb min max suc zero add sub mul div mod
pow fits bits load store""".split())
# lemmas whose names a definition takes: where, which, and the new name
TAKEN = [
    ('crates/promises/proofs', 'list_read', 'list_read_lem'),
    ('crates/theorems/proofs', 'front_of', 'front_of_lem'),
    ('crates/theorems/proofs', 'one_line', 'one_line_lem'),
    ('crates/write/proofs', 'block_size', 'block_size_lem'),
]


def snake(name):
    return re.sub(r"(?<=[a-z0-9'])([A-Z])|(?<=[A-Z])([A-Z])(?=[a-z])", lambda m: '_' + (m[1] or m[2]), name).lower()


def code_of(text):
    return '\n'.join(line.split('--')[0] for line in text.splitlines())


def library_tokens():
    found = set()
    for base in ('logic', 'std', 'core', 'std_alloc', 'std_collections', 'std_heap', 'std_io', 'antt', 'io', 'libc', 'os'):
        for p in sorted((LIB / base).rglob('*.antt')):
            found.update(TOKEN.findall(p.read_text(errors='replace')))
    return found


def source_names():
    functions, others = set(), set()
    for p in ROOT.glob('crates/*/src/*.rt'):
        text = p.read_text()
        functions.update(re.findall(r'\bfn (\w+)', text))
        others.update(re.findall(r'\b(?:struct|enum|const|static|type) (\w+)', text))
        others.update(re.findall(r'^\s+(?:pub )?(\w+):', text, re.M))
    return functions, others


def generated(text):
    """Names that a proof file gives to answers of generated goals."""
    return set(re.findall(r"^(?:abbrev )?(?:pub )?([^\s:]+) :\s+tie\.", text, re.M))


def main():
    dry = '--dry' in sys.argv
    library = library_tokens()
    functions, others = source_names()
    antt = sorted(ROOT.glob('crates/*/specs/**/*.antt')) + sorted(ROOT.glob('crates/*/proofs/**/*.antt'))
    texts = {p: p.read_text() for p in antt}
    for where, old, new in TAKEN:
        for p in antt:
            if str(p.relative_to(ROOT)).startswith(where):
                texts[p] = re.sub(rf"(?<![\w'.-]){old}(?![\w'.-])", new, texts[p])
    declared, camel, heads = set(), set(), set()
    for p, text in texts.items():
        code = code_of(text)
        mine = set()
        for m in DECLARED.finditer(code):
            mine.update(m[1].split())
        declared |= mine - generated(code)
        camel.update(t for t in TOKEN.findall(code) if CAMEL.match(t))
        # a definition: its type does not end in an equation or an order, which a name cannot tell; so all of specs/, and abbrevs
        if '/specs/' in str(p):
            heads |= set(re.findall(r"^\s*(?:pub |abbrev |unfoldable )*([^\s:]+) :", code, re.M))
    # the names that a lemma's name can be made of
    names = LIBRARY | {snake(t) for t in camel} | {h for h in heads if '-' not in h and not CAMEL.match(h)} | functions
    names = {n for n in names if re.match(r'^[a-z]', n)}

    def respelt(old):
        if CAMEL.match(old):
            return snake(old)
        plain = old.replace('-', '_')
        if plain.endswith('_spec') and plain[:-5] in functions:
            return plain
        parts = []
        for w in old.split('-'):
            parts.append('get_or' if w == 'getD' else snake(w) if CAMEL.match(w) else w)
        out, i, last = '', 0, None
        while i < len(parts):
            for j in range(len(parts), i, -1):
                run = '_'.join(parts[i:j])
                if run in names or (j == i + 1 and parts[i][:1].isupper()):
                    kind = 'name'
                    break
            else:
                j, run, kind = i + 1, parts[i], 'word'
            if out:
                out += '-' if (last, kind) == ('name', 'name') else '_'
            out += run
            last, i = kind, j
        return out

    table = {}
    for t in sorted(camel | {d for d in declared if '-' in d}):
        if t in library or t in functions:
            continue
        new = respelt(t)
        if new != t:
            table[t] = new
    # a lemma that would have a definition's name
    words = {new for t, new in table.items() if CAMEL.match(t)} | {h for h in heads if '-' not in h}
    for t in table:
        if not CAMEL.match(t) and table[t] in words:
            table[t] += '_lem'
    # names that would fall together in a file, or with a name of the library that the file says
    bad = 0
    for p, text in sorted(texts.items()):
        said = set(TOKEN.findall(code_of(text)))
        to = collections.defaultdict(set)
        for t in said:
            to[table.get(t, t)].add(t)
        for new, olds in sorted(to.items()):
            # a name of src/ stands behind a dot, in a path or as a field
            olds = {o for o in olds if o == new and not re.search(rf"(?<![\w'.-]){re.escape(o)}(?![\w'-])", code_of(text)) is None or o != new}
            if len(olds) > 1 and new not in others:
                bad += 1
                print(f'{p.relative_to(ROOT)}: {sorted(olds)} would all be {new}')
    word = collections.Counter(table.values())
    for new, n in sorted(word.items()):
        if n > 1:
            print(f'two names: {[o for o in table if table[o] == new]} would be {new}')
    for new in sorted(set(table.values()) & others):
        print('a field, a constant or a type of src/ has this name:', new, [o for o in table if table[o] == new])
    print(len(table), 'names', bad, 'clashes')
    if dry:
        for o in sorted(table):
            print('  ', o, table[o])
        return bad

    def turn(text, goals=()):
        return TOKEN.sub(lambda m: table.get(m[0], m[0]) if m[0] not in goals else m[0], text)

    def ticks(text):
        return re.sub(r'`[^`\n]+`', lambda m: turn(m[0]), text)

    for p, text in texts.items():
        goals = generated(code_of(text))
        lines = []
        for line in text.split('\n'):
            code, dash, comment = line.partition('--')
            lines.append(turn(code, goals) + dash + re.sub(r"[a-z][a-z0-9]*[A-Z][\w']*", lambda m: table.get(m[0], m[0]), ticks(comment)))
        new = '\n'.join(lines)
        if new != p.read_text():
            p.write_text(new)
    for p in sorted(ROOT.glob('crates/*/src/*.rt')) + sorted(ROOT.glob('crates/*/must-fail/*.edit')) + sorted(ROOT.glob('edits/*/*.edit')):
        text = p.read_text()
        if p.suffix == '.rt':
            new = re.sub(r"(?<![\w'])[a-z][a-z0-9]*[A-Z][\w']*", lambda m: table.get(m[0], m[0]), text)
        else:
            new = turn(text)
        if new != text:
            p.write_text(new)
    for p in [ROOT / 'README.md'] + sorted((ROOT / 'docs').glob('**/*.md')) + sorted((ROOT / 'compare').glob('**/*.md')) + sorted((ROOT / 'bindings').glob('**/*.md')):
        if 'target' in p.parts:
            continue
        text = p.read_text()
        new = ticks(text)
        if new != text:
            p.write_text(new)
    return 0


if __name__ == '__main__':
    sys.exit(1 if main() else 0)
