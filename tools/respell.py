#!/usr/bin/env python3
"""Brings the names that this repository declares to Rattle's spelling: words in snake case, types and modules in upper camel case.

usage: python3 tools/respell.py [FOLDER]     at the top of the repository, or with the folder of another checkout; --check writes nothing

Definitions, lemmas, fields and local names of specs/ and proofs/, where they stand there, in the clauses of src/, in must-fail edits and in the code spans of
README.md and docs/. Functions of src/, exported names, strings and what a proof file cites of a library or of what Rattle makes keep their spelling.
A name that would meet another one of its file is listed and gets the name that OTHERS gives it. It runs once, after the kit's own script.
"""
import collections
import glob
import os
import re
import sys

WORD = re.compile(r'[^\s(){}.;,@"«»`\[\]]+')
USE = re.compile(r"(?m)^(?:pub )?use ([^\s;{]+?)(?:\.\{([^}]*)\}| as (\S+))?\s*$")
GHOST_USE = re.compile(r"ghost use ([^\s;{]+?)(?:\.\{([^}]*)\}| as (\S+))?;")
MADE = re.compile(r"\.(Tie|Lts|Goals|Given|Code|Statement|declared)(\.|$)")
DECLARED = re.compile(r'(?m)^ *(?:(?:pub|abbrev|unfoldable) +)*([^\s(){}.;,@"«»]+)(?: \{[^{}\n]*\})* :(?= |$)')
# Names of the one proof that walks its code by hand, which Rattle makes.
STAYS = set("merge-halves-reads sort-keys sort-keys-kinds sort-keys-lts #corrected-center corrected-center calculate-def calculate-thm".split())
STAYS |= set("corrected-center-def corrected-center-thm".split())
# What another script made of a name in the middle of others.
GARBLED = {"Going-on": "going_on", "getD-firsts": "get_or_firsts", "getD-tab": "get_or_tab", "getD-zeros": "get_or_zeros"}
# Lemmas and facts that would have a definition's name.
LEMMAS = """bad-header black-at black-center black-row boundary-words byte-bit file-run first-column from-black from-first-black is-scale last-digit
left-shift nan-bits pixel-column pixel-row pixel-words point-words right-shift row-bit size-words spread-words two-rows white-at word-bit words-run""".split()
OTHERS = {it: it.replace("-", "_") + "_lem" for it in LEMMAS}
# Plain words that would meet a definition in one file.
PLAIN = {"detector_verdict/proofs/Judging.antt": ("laid_out", "laid_out_lem")}


def wanted(word):
    return bool(re.search(r"[A-Za-z0-9]-[A-Za-z0-9]", word) or re.search(r"^[^A-Z]*[a-z][^A-Z]*[a-z0-9₀-₉][A-Z]", word))


def snake(word):
    if word in GARBLED:
        return GARBLED[word]
    if word in OTHERS:
        return OTHERS[word]
    word = re.sub(r"(?<=[a-z0-9])[A-Z]", lambda m: "_" + m[0].lower(), word)
    return re.sub(r"(?<=[A-Za-z0-9])-(?=[A-Za-z0-9])", "_", word).replace("′", "'")


class Names:
    def __init__(self, top):
        self.top = top
        here = lambda *parts: [f for f in glob.glob(os.path.join(top, *parts), recursive=True) if "/out/" not in f]
        self.antt = sorted(here("crates/*/specs/**/*.antt") + here("crates/*/proofs/**/*.antt"))
        self.rt = sorted(here("crates/*/src/**/*.rt"))
        self.edits = sorted(here("crates/*/must-fail/*.edit"))
        self.pages = sorted(here("*.md") + here("docs/*.md") + here("oracle/*.md") + here("trials/*.md"))
        self.crates = {os.path.relpath(f, top).split("/")[1] for f in self.antt}
        self.declared = set()
        for path in self.antt:
            text = read(path)
            ties = self.ties(path, text)
            self.declared |= {m[1] for m in DECLARED.finditer(text) if m[1] not in ties}
        # Of texts the kit's script does not turn: a name that it has turned where it is declared.
        self.turned_before = {it for it in self.declared if not wanted(it)}

    def ties(self, path, text):
        """The answers of a proof file, which are named as Rattle names them."""
        if not path.endswith("Proof.antt"):
            return set()
        return set(re.findall(r"(?m)^(?:pub |abbrev )*(\S+) :(?: |\n *)tie\.", text))

    def foreign(self, text, use):
        out = set()
        for path, items, alias in use.findall(text):
            own = path.startswith("Rattle.") and path.split(".")[1] in self.crates and not MADE.search(path)
            if not own:
                out.update(WORD.findall(items) or [alias or path.split(".")[-1]])
        return out

    def turned(self, code, stays, seen=None, plain=(None, None)):
        def one(m):
            word = m[0]
            if word == plain[0]:
                return plain[1]
            dotted = code[m.start() - 1 : m.start()] == "."
            if not wanted(word) or word in stays or word in STAYS or dotted and word not in self.declared:
                return word
            if seen is not None:
                seen[word] = snake(word)
            return snake(word)

        return WORD.sub(one, code)

    def of_text(self, word, stays=()):
        named = word in self.declared or snake(word) in self.turned_before
        return snake(word) if wanted(word) and named and word not in stays else word

    def spans(self, text, stays):
        """Turns what stands in code spans alone."""
        one = lambda m: WORD.sub(lambda w: self.of_text(w[0], stays), m[0])
        return re.sub(r"`[^`\n]+`", one, text)

    def in_antt(self, path, text, seen=None):
        stays = self.foreign(text, USE) | self.ties(path, text)
        plain = next((pair for end, pair in PLAIN.items() if path.endswith(end)), (None, None))
        parts = re.split(r'(--[^\n]*|"(?:[^"\\]|\\.)*")', text)
        out = []
        for at, part in enumerate(parts):
            if at % 2 == 0:
                out.append(self.turned(part, stays, seen, plain))
            else:
                out.append(self.spans(part, stays) if part.startswith("--") else part)
        return "".join(out)

    def in_rt(self, text):
        stays = self.foreign(text, GHOST_USE)
        parts = re.split(r'(//[^\n]*|"(?:[^"\\]|\\.)*")', text)
        out = []
        for at, part in enumerate(parts):
            if at % 2 == 0:
                out.append(WORD.sub(lambda w: self.of_text(w[0], stays), part))
            else:
                out.append(self.spans(part, stays) if part.startswith("//") else part)
        return "".join(out)

    def in_edit(self, text):
        def line(m):
            return m[1] + WORD.sub(lambda w: self.of_text(w[0]), m[2])

        return re.sub(r"(?m)^((?:old|new): )(.*)$", line, text)


def read(path):
    with open(path, encoding="utf-8") as f:
        return f.read()


def clashes(names):
    """Two names of a file that would be one."""
    for path in names.antt:
        seen = {}
        text = read(path)
        names.in_antt(path, text, seen)
        code = re.sub(r'--[^\n]*|"(?:[^"\\]|\\.)*"', "", text)
        bare = {m[0] for m in WORD.finditer(code) if code[m.start() - 1 : m.start()] != "."}
        made = collections.defaultdict(set)
        for old, new in seen.items():
            made[new].add(old)
        for new, olds in sorted(made.items()):
            if len(olds) > 1 or new in bare:
                yield path, new, sorted(olds), new in bare
    whole = collections.defaultdict(set)
    for name in names.declared:
        whole[snake(name) if wanted(name) else name].add(name)
    for new, olds in sorted(whole.items()):
        if len(olds) > 1:
            yield "(the repository)", new, sorted(olds), False


def main():
    arguments = [a for a in sys.argv[1:] if a != "--check"]
    names = Names(arguments[0] if arguments else ".")
    for path, new, olds, bare in clashes(names):
        print(f"look: {path}: {' '.join(olds)} -> {new}{' (which stands there)' if bare else ''}")
    if "--check" in sys.argv:
        return
    turn = [(f, lambda t, f=f: names.in_antt(f, t)) for f in names.antt]
    turn += [(f, names.in_rt) for f in names.rt] + [(f, names.in_edit) for f in names.edits]
    turn += [(f, lambda t: names.spans(t, set())) for f in names.pages]
    changed = 0
    for path, how in turn:
        old = read(path)
        new = how(old)
        if new != old:
            changed += 1
            with open(path, "w", encoding="utf-8") as f:
                f.write(new)
    print(f"{changed} files")


main()
