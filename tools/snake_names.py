#!/usr/bin/env python3
"""Respells this repository's own definitions and lemmas as today's Rattle spells names: words in snake case, types in upper camel case.

usage: python3 tools/snake_names.py [--names] [FOLDER]

Run once, at the top of a repository that port.py has turned, or on FOLDER. It renames what the files of specs/ and the lemma files
of proofs/ declare with a hyphen: definitions, lemmas, fields, constructors and the names that imports give. What the check makes
(the goals of a function) and what the library declares keep their names, as do strings and comments. Names whose new spelling stands
beside them already are renamed too, and listed, to be looked at. With --names it lists what it would rename, and writes nothing.
"""

import os
import re
import sys

WORD = re.compile(r"(?<![\w'\-·◌])[A-Za-z][A-Za-z0-9_]*(?:-[A-Za-z0-9_']+)+'?(?![\w'\-◌])")
DECLARED = re.compile(r"^\s*(?:\|\s*)?(?:abbrev |pub |unfoldable |record |data |syntax )*([A-Za-z][A-Za-z0-9_'\-]*(?:[ ]+[A-Za-z][A-Za-z0-9_'\-]*)*)[^:=]*?:\s")
IMPORT = re.compile(r"^\s*(?:pub )?(?:ghost )?use ([^{;]*)\{([^}]*)\}")
OWN_CRATE = re.compile(r"^Rattle\.(\w+)\.(?:specs|proofs)")


def files(root):
    for folder, dirs, names in os.walk(os.path.join(root, "crates")):
        dirs[:] = sorted(d for d in dirs if d not in ("out", ".git"))
        for name in sorted(names):
            if name.endswith((".rt", ".antt", ".edit")):
                yield os.path.join(folder, name)


def is_definition_file(root, path):
    parts = os.path.relpath(path, os.path.join(root, "crates")).split(os.sep)
    return path.endswith(".antt") and (parts[1] == "specs" or (parts[1] == "proofs" and len(parts) == 3))


def pieces(text, path):
    """The text in turns: what may be renamed, and what may not (comments, strings)."""
    mark = "--" if path.endswith(".antt") else "//"
    pattern = re.compile(r'"(?:[^"\\\n]|\\.)*"|' + (r"(?:(?<=\s)|^)--[ \n][^\n]*" if mark == "--" else r"//[^\n]*"), re.M)
    at = 0
    for m in pattern.finditer(text):
        yield text[at : m.start()], True
        yield m.group(0), False
        at = m.end()
    yield text[at:], True


def respelled(name):
    if name[0].isupper():
        return "".join(part[:1].upper() + part[1:] for part in name.split("-"))
    return name.replace("-", "_")


def main(argv):
    dry = "--names" in argv
    rest = [a for a in argv if a != "--names"]
    root = rest[0] if rest else "."
    texts = {path: open(path, encoding="utf-8").read() for path in files(root)}
    crates = set(os.listdir(os.path.join(root, "crates")))
    declared, foreign, made, present = {}, set(), set(), {}
    for path, text in texts.items():
        made.update(re.findall(r"\b(?:goal|given)\.([A-Za-z][\w'\-]*)", text))
        open_text = "".join(piece for piece, free in pieces(text, path) if free)
        present[path] = set(re.findall(r"[A-Za-z_][\w']*(?:-[\w']+)*", open_text))
        for line in open_text.splitlines():
            m = IMPORT.match(line)
            if m:
                own = OWN_CRATE.match(m.group(1).strip())
                if not (own and own.group(1) in crates):
                    foreign.update(re.findall(r"[A-Za-z][\w'\-]*", m.group(2)))
        if is_definition_file(root, path):
            for line in open_text.splitlines():
                if line.lstrip().startswith(("use ", "let ", "λ", "--", "module ", "pub module ")):
                    continue
                m = DECLARED.match(line)
                if m:
                    for name in m.group(1).split():
                        if "-" in name:
                            declared.setdefault(name, path)
    names, left = {}, []
    for name in sorted(declared):
        if name in foreign or name in made:
            left.append(f"{name}: the library's or a goal's")
            continue
        new = respelled(name)
        if any(new in words and name in words for words in present.values()) or new in foreign:
            left.append(f"{name}: {new} stands beside it, or is the library's")
        names[name] = new
    for text in texts.values():
        for alias in re.findall(r"\bas ([A-Za-z][A-Za-z0-9_]*(?:-[A-Za-z0-9_']+)+)(?=[,}\s])", text):
            if alias not in names and alias not in foreign and alias not in made:
                names[alias] = respelled(alias)
    news = {}
    for name, new in names.items():
        news.setdefault(new, []).append(name)
    for new, olds in news.items():
        if len(olds) > 1:
            left.append(f"{', '.join(olds)}: all become {new}")
    print("\n".join(left))
    print(f"{len(names)} names")
    if dry:
        print(" ".join(names))
        return 0
    changed = 0
    for path, text in texts.items():
        out = []
        for piece, free in pieces(text, path):
            out.append(WORD.sub(lambda m: names.get(m.group(0), m.group(0)), piece) if free else piece)
        new = "".join(out)
        if new != text:
            changed += 1
            with open(path, "w", encoding="utf-8") as f:
                f.write(new)
    print(f"{changed} files")
    return 0


if __name__ == "__main__":
    raise SystemExit(main(sys.argv[1:]))
