#!/usr/bin/env python3
"""What the design pass changed in words: python3 tools/design_list.py > docs/DESIGN-PASS-LIST.md

Old and new side by side, of the commit in the first line of docs/DESIGN-PASS.md and of the work tree: each function's
signature and clauses, each definition of specs/, and each law of proofs/ that README or docs/ name."""
import os
import re
import subprocess
import textwrap

ROOT = os.path.dirname(os.path.dirname(os.path.abspath(__file__)))
WIDTH = 116
HEAD = r"^impl(?:<[^>]*>)? ([^{]+) \{|^(\s*)((?:pub(?:\(crate\))? )?(?:extern \"C\" )?fn \w+)|^\}"


def git(*args):
    return subprocess.run(["git", "-C", ROOT, *args], capture_output=True, text=True, check=True).stdout


def begin():
    with open(os.path.join(ROOT, "docs", "DESIGN-PASS.md")) as f:
        return re.search(r"[0-9a-f]{40}", f.readline()).group(0)


def files_at(commit, part, ending):
    names = git("ls-tree", "-r", "--name-only", commit, "crates").split("\n")
    for name in names:
        if re.fullmatch(r"crates/\w+/" + part + r"/[^/]+" + re.escape(ending), name):
            yield name, git("show", f"{commit}:{name}")


def files_now(part, ending):
    for name in sorted(git("ls-files", "crates").split("\n")):
        if re.fullmatch(r"crates/\w+/" + part + r"/[^/]+" + re.escape(ending), name):
            path = os.path.join(ROOT, name)
            if os.path.exists(path):
                with open(path) as f:
                    yield name, f.read()


def flat(text):
    return re.sub(r"\s+", " ", text).strip()


def functions(files):
    """Signatures with their clauses, by crate, type and name."""
    found = {}
    for path, text in files:
        crate = path.split("/")[1]
        owner = ""
        for m in re.finditer(HEAD, text, re.M):
            if m.group(1):
                owner = m.group(1).split(" for ")[-1].strip() + "::"
            elif m.group(0) == "}":
                owner = ""
            else:
                head = text[m.start(3):]
                end = re.search(r"(?:^\s*\{$)|(?: \{$)", head, re.M)
                key = (crate, owner + m.group(3).split()[-1])
                found[key] = flat(head[: end.start()])
    return found


def definitions(files):
    """Definitions of specs/ and laws of proofs/, by crate, file and name; comments and imports apart."""
    found = {}
    for path, text in files:
        crate, name = path.split("/")[1], os.path.basename(path)[: -len(".antt")]
        for block in re.split(r"\n\s*\n", text):
            lines = [l for l in block.split("\n") if not re.match(r"\s*(--|use |pub use |pub mod |mod )", l)]
            body = "\n".join(lines).strip()
            m = re.match(r"(?:abbrev |unfoldable )?(?:pub )?(?:record |data )?([^\s:]+)", body)
            if body and m and m.group(1) != "module":
                found[(crate, f"{name}.{m.group(1)}")] = flat(body)
            elif body:
                for law in re.finditer(r"^\s+pub ([^\s:]+) :.*(?:\n\s+→.*)*", body, re.M):
                    found[(crate, f"{name}.{law.group(1)}")] = flat(law.group(0))
    return found


def laws(files, named):
    """Statements alone of the laws that the documents name."""
    found = {}
    for path, text in files:
        crate, name = path.split("/")[1], os.path.basename(path)[: -len(".antt")]
        for law in re.finditer(r"^\s*pub ([\w'-]+) :.*(?:\n\s+→.*)*", text, re.M):
            if law.group(1) in named:
                found[(crate, f"{name}.{law.group(1)}")] = flat(law.group(0))
    return found


def wrapped(mark, text):
    out = textwrap.wrap(text, WIDTH - 2, break_long_words=False, break_on_hyphens=False) or [""]
    lines, width = [], WIDTH - 2
    for line in out:
        while len(line.encode()) > width:
            cut = line.rfind(" ", 0, max(20, width * len(line) // len(line.encode()) - 2))
            lines.append(line[:cut])
            line = line[cut + 1 :]
        lines.append(line)
    return "\n".join((mark if i == 0 else " ") + " " + l for i, l in enumerate(lines))


def section(title, old, new):
    both = [k for k in sorted(old) if k in new and old[k] != new[k]]
    gone = [k for k in sorted(old) if k not in new]
    come = [k for k in sorted(new) if k not in old]
    print(f"\n## {title}\n")
    same = sum(1 for k in old if new.get(k) == old[k])
    print(f"The same {same}, changed {len(both)}, gone {len(gone)}, new {len(come)}.\n")
    print("```diff")
    for k in both:
        print(f"@ {k[0]}::{k[1]}")
        print(wrapped("-", old[k]))
        print(wrapped("+", new[k]))
    for k in gone:
        print(f"@ {k[0]}::{k[1]} (gone, or under another name)")
        print(wrapped("-", old[k]))
    for k in come:
        print(f"@ {k[0]}::{k[1]} (new)")
        print(wrapped("+", new[k]))
    print("```")


def main():
    commit = begin()
    print("# What the design pass changed, old and new side by side\n")
    print("Written by `tools/design_list.py`; docs/DESIGN-PASS.md says what stands for what, and why.")
    docs = ""
    for name in git("ls-files", "README.md", "docs").split("\n"):
        if name.endswith(".md") and "PORT" not in name and "DESIGN-PASS" not in name:
            with open(os.path.join(ROOT, name)) as f:
                docs += f.read()
    named = set(re.findall(r"`([\w']+)`", docs))
    then, now = (lambda part, end: files_at(commit, part, end)), files_now
    section("Signatures and clauses", functions(then("src", ".rt")), functions(now("src", ".rt")))
    section("Definitions of specs/", definitions(then("specs", ".antt")), definitions(now("specs", ".antt")))
    said = (laws(then("proofs", ".antt"), named), laws(now("proofs", ".antt"), named))
    section("Laws of proofs/ that the documents name", *said)


main()
