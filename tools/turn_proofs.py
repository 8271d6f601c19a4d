#!/usr/bin/env python3
"""Turns a crate's Proof.antt files of the form `tie.close (tie.spec ..)` into Invariants.antt and Answers.antt.

usage: tools/turn_proofs.py CRATE NAMES.json [FUNCTION..]

NAMES.json is what `rt check --generated FOLDER --old-names` wrote. It was used on each crate of the port (docs/PORT.md), and
grew with them; what it leaves is for a check to name. An answer that is `search rules` is left out, since the check tries that by itself.
"""
import json
import pathlib
import re
import sys

ROOT = pathlib.Path(__file__).resolve().parents[1]
LETTER = r"\w'′₀-₉"
NAME = rf"[{LETTER}]+(?:-[{LETTER}]+)*"


def blocks(text):
    """The declarations of a file: groups of lines that begin at the left margin with a signature."""
    head, decls, now = [], [], None
    for line in text.split('\n'):
        if line.startswith('use ') or (now is None and line.startswith('--')):
            head.append(line)
            continue
        sig = re.match(rf"((?:pub |abbrev |unfoldable )*)({NAME}) :(?= |$)", line)
        if sig and (now is None or sig.group(2) != now['name'] or True):
            now = {'name': sig.group(2), 'marks': sig.group(1), 'lines': [line]}
            if decls and decls[-1].get('pending'):
                pass
            decls.append(now)
            continue
        if now is None:
            if line.strip():
                head.append(line)
            continue
        now['lines'].append(line)
    # comments just above a declaration go with it
    for a, b in zip(decls, decls[1:]):
        tail = []
        while a['lines'] and (a['lines'][-1].startswith('--') or not a['lines'][-1].strip()):
            tail.insert(0, a['lines'].pop())
        b['above'] = [l for l in tail if l.startswith('--')]
    for d in decls:
        while d['lines'] and not d['lines'][-1].strip():
            d['lines'].pop()
    return head, decls


def args_of(text):
    """The arguments of a term that begins behind its head: balanced pieces."""
    out, i, n = [], 0, len(text)
    while i < n:
        if text[i].isspace():
            i += 1
            continue
        if text[i] == ')':
            break
        j = i
        if text[i] == '(':
            depth = 0
            while j < n:
                depth += text[j] == '('
                depth -= text[j] == ')'
                j += 1
                if depth == 0:
                    break
        else:
            while j < n and not text[j].isspace() and text[j] not in '()':
                j += 1
        # a projection behind a bracket belongs to it
        while j < n and not text[j].isspace() and text[j] not in '()':
            j += 1
        out.append(text[i:j])
        i = j
    return out


def aligned(args, needs, decls):
    """As many of the arguments as there are goals, in order: what was asked of a call takes two parameters, all else one."""
    def cost(arg, need):
        d = next((d for d in decls if d['name'] == arg), None)
        if d:
            m = re.search(rf"tie\.Need-({NAME})", ' '.join(d['lines'][:2]))
            return 0 if m and m.group(1).replace('-', '_') == need[0].replace('-', '_') else 5
        two = bool(re.match(rf"\(λ {NAME} {NAME}\.", arg))
        return 0 if two == bool(re.search(r"-requires(-\d+)?$", need[0])) else 3

    best = {(0, 0): (0, [])}
    for i, arg in enumerate(args):
        for j in range(len(needs) + 1):
            if (i, j) not in best:
                continue
            c, taken = best[i, j]
            trivial = strip(re.sub(r"^\(λ c\. ", '', arg)[:-1]) == 'search rules'
            for to, more, kept in (((i + 1, j), 0 if trivial else 9, taken), ((i + 1, j + 1), cost(arg, needs[j]) if j < len(needs) else 99, taken + [arg])):
                if to[1] <= len(needs) and (to not in best or best[to][0] > c + more):
                    best[to] = (c + more, kept)
    return best.get((len(args), len(needs)), (0, []))[1]


def strip(term):
    term = term.strip()
    while term.startswith('(') and term.endswith(')'):
        depth = 0
        for k, ch in enumerate(term):
            depth += ch == '('
            depth -= ch == ')'
            if depth == 0 and k < len(term) - 1:
                return term
        term = term[1:-1].strip()
    return term


class Steps:
    """How steps are named: old to new, for one function."""

    def __init__(self, info):
        self.map, self.inner = {}, {}
        for place in info['places']:
            old, new = place[2]
            if old and old not in self.map:
                self.map[old] = new
            for a, b in place[4]:
                self.inner.setdefault(place[2][1], {})[a] = b
        for (old, new), _ in info['loops']:
            self.map[old] = new
            self.map[old + '-test'] = new + '-test'
        self.arms = {}
        for arm in info['arms']:
            if arm:
                name, _, facts = arm
                for field, step, path in facts:
                    self.arms.setdefault((step, *path), f"{name}.{field}")

    def path(self, path):
        """A path behind `c`, as `.before.byte_at.ensures`."""
        parts = path.split('.')[1:]
        while parts and parts[0] == 'before':
            parts = parts[1:]
        if not parts:
            return path
        for n in range(len(parts), 0, -1):
            found = self.arms.get(tuple(parts[:n])) or self.arms.get(tuple(p.replace('-', '_') for p in parts[:n]))
            if found:
                return '.' + '.'.join([found, *parts[n:]])
        step = parts[0]
        for form in (step, step.replace('-', '_'), step.replace('-', '_').lower(), re.sub('_lem(?=\\d*$)', '', step), re.sub('_lem(?=\\d*$)', '', step).lower()):
            if form in self.map:
                step = self.map[form]
                break
        if step == 'well-formed':
            step = 'well_formed'
        rest = parts[1:]
        if rest and rest[0] in self.inner.get(step, {}):
            rest[0] = self.inner[step][rest[0]]
        return '.' + '.'.join([step, *rest])


def respelt(name):
    name = name.replace('′', "'").replace('-', '_')
    name = re.sub(r"(?<=[a-z0-9])([A-Z])", lambda m: '_' + m.group(1).lower(), name)
    return name


def turn(crate, function, path, info):
    text = path.read_text()
    if 'tie.spec' not in text:
        return 'no tie.spec'
    head, decls = blocks(text)
    spec = next((d for d in decls if 'tie.spec' in '\n'.join(d['lines'])), None)
    if spec is None:
        return 'no spec'
    body = '\n'.join(spec['lines'])
    args = args_of(body[body.index('tie.spec') + len('tie.spec'):])
    steps = Steps(info)
    needs = info['needs']
    loops = info['loops']
    inv, goals = [], []
    for a in args:
        d = next((d for d in decls if d['name'] == a), None)
        if d and re.search(r": tie\.(invariant|decreases)-", d['lines'][0]):
            inv.append((a, d))
        else:
            goals.append(a)
    said = []
    # goals that the older kit did not ask
    if len(goals) != len(needs):
        # a literal's goal is no longer asked: it stands before the call that takes the literal
        goals = aligned(goals, needs, decls)
        if not goals:
            said.append(f"arguments and {len(needs)} goals do not go together")
    local = {}
    facts = {}
    for d in list(decls):
        m = re.match(rf"{NAME} : \(c : tie\.[^)]*\) → (?:let ({NAME}) = c\.args in )?(.*)", ' '.join(l.strip() for l in d['lines'] if ' : ' in l or not l.startswith(d['name'])), re.S)
        if m and d['lines'][0].count('tie.'):
            sig = d['lines'][0].split(') → ', 1)[1]
            if m.group(1):
                sig = re.sub(rf"(?<![{LETTER}.-]){m.group(1)}\.", 'c.args.', sig.split(' in ', 1)[1])
            proof = ' '.join(l.strip() for l in d['lines'][1:] if not l.startswith('unfolding')).split(' = ', 1)[1]
            facts[d['name']] = (sig, proof)
            decls.remove(d)

    def words(term):
        called = [f for f in facts if re.search(rf"(?<![{LETTER}.-]){re.escape(f)} ", term)]
        if called:
            for f in called:
                term = re.sub(rf"\({re.escape(f)} c(?:\.before)*\)|(?<![{LETTER}.-]){re.escape(f)} c(?:\.before)*", respelt(f), term)
            lets = ''.join(f"\n    let {respelt(f)} : {facts[f][0]} = {facts[f][1]} in" for f in called)
            # behind the sign of the clause's equation
            m = re.search(r" =(?=\s)", term)
            term = term[:m.end()] + lets + ('' if term[m.end():].startswith('\n') else '\n    ') + term[m.end():].lstrip(' ') if m else lets.lstrip() + ' ' + term
        # an alias of an earlier step's facts: today each step is a field of `c`
        names = ['c']
        while True:
            m = re.search(rf"let ({NAME}) = (?:{'|'.join(map(re.escape, names))})(?:\.before)+ in\s*", term)
            if not m:
                break
            names.append(m.group(1))
            term = term[:m.start()] + term[m.end():]
        for name in names[1:]:
            term = re.sub(rf"(?<![{LETTER}.-]){re.escape(name)}(?=\.)", 'c', term)
        term = re.sub(rf"(?<![{LETTER}.-])c((?:\.{NAME})+)", lambda m: 'c' + steps.path(m.group(1)), term)
        term = re.sub(rf"\btie\.Need-({NAME})", lambda m: 'goal.' + dict(needs).get(m.group(1), m.group(1)), term)
        return re.sub(rf"(?<![{LETTER}.-])({'|'.join(map(re.escape, local))})(?![{LETTER}-])", lambda m: local[m.group(1)], term) if local else term

    used = {spec['name']} | {a for a, _ in inv}
    answers = []
    for (old, new), a in zip(needs, goals):
        d = next((d for d in decls if d['name'] == a), None)
        if d is not None:
            used.add(a)
            local[a] = new
            answers.append((new, d))
            continue
        term = strip(a)
        m = re.match(rf"λ ((?:{NAME} ?)+)\. ?(.*)", term, re.S)
        if m:
            term = m.group(2)
            if strip(term) in ('search rules',):
                continue
            answers.append((new, strip(term)))
        else:
            answers.append((new, 'EXACT ' + term))
    helpers = [d for d in decls if d['name'] not in used]
    for d in helpers:
        local[d['name']] = respelt(d['name'])
    out = []
    for d in helpers:
        out.append('\n'.join(d.get('above', []) + [words(l) for l in d['lines']]))
    for new, d in answers:
        if isinstance(d, str):
            if d.startswith('EXACT '):
                out.append(f"pub {new} : goal.{new}\n{new} = {words(d[6:])}")
            else:
                out.append(f"pub {new} : goal.{new}\n{new} c = {words(d)}")
            continue
        lines = [f"pub {new} : goal.{new}"]
        rest = '\n'.join(d['lines'][1:])
        rest = re.sub(rf"^{re.escape(d['name'])}(?= )", "\0", rest, flags=re.M)
        rest = re.sub(rf"^(\0(?: {NAME})*?) κs(?= |$)", r"\1", rest, flags=re.M)
        lines += words(rest).replace('\0', new).split('\n')
        # nothing to say: the check finds it
        joined = ' '.join(x.strip() for x in lines[1:])
        if re.fullmatch(rf"{re.escape(new)} c = search rules", joined):
            continue
        out.append('\n'.join(d.get('above', []) + lines))
    comment = [l for l in head if l.startswith('--')]
    uses = [l for l in head if l.startswith('use ') and not re.search(r"\.(Statement|Tie)(\.\{| as )", l)]
    mod = f"Rattle.{crate}.proofs.{function}"
    done = []
    if out:
        whole = '\n\n'.join(out)
        (path.parent / 'Answers.antt').write_text('\n'.join(comment + uses + [f"use {mod}.Goals as goal"]) + '\n\n' + whole + '\n')
        done.append('Answers')
    if inv:
        parts = []
        for k, (a, d) in enumerate(inv):
            kind, old = re.search(rf": tie\.(invariant|decreases)-({NAME})", d['lines'][0]).groups()
            name, live, changed = None, None, None
            for n, ((o, w), vs) in enumerate(loops):
                if o == old or len(loops) == 1:
                    name, live, changed = w, vs, info['changed'][n]
            if name is None:
                said.append(f"no loop {old}")
                continue
            params = [('l.initial.' if c else 'l.') + v for v, c in zip(live, changed)] + ['l.' + v for v, c in zip(live, changed) if c]
            term = '\n'.join(d['lines'][1:])
            unf = [l for l in d['lines'][1:] if l.startswith('unfolding')]
            term = '\n'.join(l for l in d['lines'][1:] if not l.startswith('unfolding'))
            lead, _, rest = term.partition('=')
            given = lead.split()[1:]
            if len(given) > len(params):
                said.append(f"{kind}: {len(given)} parameters for {len(params)}")
            swap = dict(zip(given, params))
            if len(given) != len(params):
                swap = {}
                for g in given:
                    base = g.rstrip('₀')
                    if base in live:
                        swap[g] = ('l.initial.' if base != g else 'l.') + base
            rest = re.sub(rf"(?<![{LETTER}.-])({NAME})", lambda m: swap.get(m.group(1), m.group(1)) if m.group(1) != '_' else '_', rest)
            parts.append('\n'.join(d.get('above', []) + [f"abbrev pub {kind}-{name} : goal.{kind}-{name}"] + unf + [f"{kind}-{name} l ={rest}"]))
        (path.parent / 'Invariants.antt').write_text('\n'.join(comment + uses + [f"use {mod}.Given as goal"]) + '\n\n' + '\n\n'.join(parts) + '\n')
        done.append('Invariants')
    path.unlink()
    return ' '.join(done + said) or 'nothing left to say'


def main(crate, names, *only):
    data = json.loads(pathlib.Path(names).read_text())
    base = ROOT / 'crates' / crate / 'proofs'
    for path in sorted(base.rglob('Proof.antt')):
        function = '.'.join(path.parent.relative_to(base).parts)
        if only and function not in only:
            continue
        info = data.get(f"Rattle-{crate}-proofs.{function}.Lts")
        if info is None:
            print(f"{function}: not in the names")
            continue
        print(f"{function}: {turn(crate, function, path, info)}")


if __name__ == '__main__':
    main(*sys.argv[1:])
