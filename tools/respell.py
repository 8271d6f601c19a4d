#!/usr/bin/env python3
"""Brings the names of this repository's own definitions and lemmas to today's spelling: snake case, and types in camel case.

usage: tools/respell.py [--check]

It brings what port.py makes of the crates, in one run, to the names that stand today, and is kept for a comparison with
what stood before (docs/PORT.md).
A name is turned where a module of specs/ or proofs/ declares it, and in each file that imports it from there. Names from the
sources (functions, structs, fields) keep their spelling.
"""
import pathlib
import re
import sys

ROOT = pathlib.Path(__file__).resolve().parents[1]
CRATES = ROOT / 'crates'
LETTER = r"\w'′₀-₉"                                  # what a name may hold, beside a dash between two of these
TOKEN = re.compile(rf"(?<![{LETTER}.-])[{LETTER}]+(?:-[{LETTER}]+)*(?![{LETTER}])")
MARKS = r"(?:(?:pub|abbrev|unfoldable|pattern|opaque|private) )*"
DECLARED = re.compile(rf"^{MARKS}([a-z][{LETTER}]*(?:-[{LETTER}]+)*) :(?=\s)", re.M)
RECORDS = re.compile(rf"^{MARKS}(?:record|data|ruleset) ([a-z][{LETTER}]*(?:-[{LETTER}]+)*)(?=\s)", re.M)
SHOWN = re.compile(rf"^[ \t]+(?:abbrev |unfoldable )*pub ([a-z][{LETTER}]*(?:-[{LETTER}]+)*) :(?=\s)", re.M)   # in a module with parameters
INNER = re.compile(rf"^[ \t]+(?:abbrev |unfoldable |pub )*([a-z][{LETTER}]*(?:-[{LETTER}]+)*) :(?=\s)", re.M)
PICKED = re.compile(rf"(?<=[\w)'])\.([a-z][{LETTER}]*(?:-[{LETTER}]+)*)")
BLOCK = re.compile(r"^(?:pub )?record [^\n]* where\n((?:(?:[ \t][^\n]*)?\n)*)", re.M)
DATA = re.compile(r"^(?:pub )?data [^\n]* where\n((?:(?:[ \t][^\n]*)?\n)*)", re.M)
FIELD = re.compile(rf"^  (?:pub )?([a-z][{LETTER}]*(?:-[{LETTER}]+)*) :(?=\s)", re.M)
USE = re.compile(r"^[ \t]*(?:(?:pub|ghost|unfoldable) )*use (Rattle\.\w+\.(?:specs|proofs)(?:\.[\w+]+)*)(?:\.\{([^{}]*)\}| as ([\w-]+))", re.M)

# Names that the rule alone would bring together with another, and functions into types, which are written as types.
GIVEN = {}


def spelt(name):
    """The spelling of today."""
    if name in GIVEN:
        return GIVEN[name]
    return respelt(name)


def respelt(name):
    """The spelling of today by the rule alone."""
    name = name.replace('′', "'").replace('-', '_')
    name = re.sub(r"(?<=[a-z0-9])([A-Z])", lambda m: '_' + m.group(1).lower(), name)
    return re.sub(r"(?<![a-zA-Z])([A-Z])", lambda m: m.group(1).lower(), name)


def module(path):
    """The module of a file that stands right in specs/ or proofs/, else None."""
    inside = path.relative_to(CRATES).parts
    if len(inside) == 3 and inside[1] in ('specs', 'proofs') and path.suffix == '.antt':
        return f"Rattle.{inside[0]}.{inside[1]}.{path.stem}"
    return None


def declared():
    """The names that each module declares: module -> {old: new}; and the fields of records that change, old -> new."""
    names, fields = {}, {}
    for path in sorted(CRATES.glob('*/*/*.antt')):
        text = path.read_text()
        found = set(DECLARED.findall(text)) | set(RECORDS.findall(text)) | set(SHOWN.findall(BLOCK.sub('', text)))
        for block in DATA.findall(text):
            found |= set(FIELD.findall(block))
        names[module(path)] = {n: spelt(n) for n in found}
        for block in BLOCK.findall(text):
            fields.update({n: spelt(n) for n in FIELD.findall(block)})
    sources = '\n'.join(p.read_text() for p in CRATES.glob('*/src/**/*.rt'))
    # a field that has the name of a struct's keeps its spelling
    fields = {o: o if re.search(rf"\b{o}: ", sources) else n for o, n in fields.items() if o != n}
    # a lemma that would have a definition's name ends in `_lem`
    words = {new for of in names for old, new in names[of].items() if '.specs.' in of or ('-' not in old and old != new)}
    for of in names:
        for old, new in names[of].items():
            if '.proofs.' in of and (new in words and not ('-' not in old and old != new)):
                names[of][old] = new + '_lem'
    return names, fields


def table(path, text, names, fields):
    """What a file's names become, those of whole modules by their alias, and what falls together there."""
    here = dict(names.get(module(path), {}))
    inner = set(INNER.findall(text)) if path.suffix == '.antt' else set()
    whole = {}
    for path_of, listed, alias in USE.findall(text):
        known = names.get(path_of, {})
        if alias:
            whole[alias] = known
        for item in re.findall(r"[^,\s]+(?:\s+as\s+[^,\s]+)?", listed):
            if ' as ' not in item and item in known:
                here[item] = known[item]
            elif ' as ' not in item and item[:1].islower() and spelt(item) in known.values():
                here[item] = spelt(item)
    clashes = []
    taken = set(here.values()) | {n for n in here}
    for name in sorted(inner, key=lambda n: ('-' in n, n)):
        if name not in here and name not in fields:
            new = respelt(name)
            here[name] = new + '_lem' if new in taken else new
            taken.add(here[name])
    by_new = {}
    for old, new in here.items():
        by_new.setdefault(new, set()).add(old)
    for new, olds in by_new.items():
        if len(olds) > 1:
            clashes.append(f"{path}: {sorted(olds)} -> {new}")
        elif new not in olds and here.get(new, new) == new and re.search(rf"(?<![{LETTER}.-]){re.escape(new)}(?![{LETTER}-])", text):
            clashes.append(f"{path}: {olds} -> {new}, which stands there already")
    return here, whole, clashes


def turned(line, proof, here, whole, fields):
    """A line with its names turned."""
    def swap(match):
        return here.get(match.group(0), match.group(0))

    mark = '--' if proof else '//'
    code, dash, comment = line.partition(mark)
    code = TOKEN.sub(swap, code)
    code = PICKED.sub(lambda m: '.' + fields.get(m.group(1), m.group(1)), code)
    if proof:
        code = TOKEN.sub(lambda m: fields.get(m.group(0), m.group(0)) if m.group(0) not in here else m.group(0), code)
    for alias, known in whole.items():
        code = re.sub(rf"(?<![{LETTER}.-]){alias}\.([{LETTER}]+(?:-[{LETTER}]+)*)",
                      lambda m: f"{alias}.{known.get(m.group(1), m.group(1))}", code)
    # a name in a comment stands between backticks
    comment = re.sub(r"`([^`]*)`", lambda m: '`' + TOKEN.sub(swap, m.group(1)) + '`', comment)
    return code + dash + comment


def main():
    names, fields = declared()
    tables, texts, clashes, count = {}, {}, [], 0
    for path in sorted(CRATES.rglob('*')):
        if path.suffix in ('.antt', '.rt') and 'out' not in path.relative_to(CRATES).parts:
            texts[path] = path.read_text()
            here, whole, found = table(path, texts[path], names, fields)
            tables[path] = here, whole
            clashes += found
    new = {path: '\n'.join(turned(line, path.suffix == '.antt', *tables[path], fields) for line in text.split('\n')) for path, text in texts.items()}
    # an edit's text is that of the file that it changes
    for path in sorted(CRATES.glob('*/must-fail/*.edit')):
        texts[path] = path.read_text()
        lines, here, whole, proof = [], {}, {}, False
        for line in texts[path].split('\n'):
            if line.startswith('file: '):
                target = path.parents[1] / line[6:]
                proof = target.suffix == '.antt'
                here, whole = tables.get(target, ({}, {}))
            if line.startswith(('old: ', 'new: ')):
                line = line[:5] + turned(line[5:], proof, here, whole, fields)
            lines.append(line)
        new[path] = '\n'.join(lines)
    for path, text in new.items():
        if text != texts[path]:
            count += 1
            if '--check' not in sys.argv:
                path.write_text(text)
    print(*clashes, sep='\n')
    print(f"{count} files")


if __name__ == '__main__':
    main()
