#!/usr/bin/env python3
"""Respells the repository's own definitions, lemmas and local names, once, right after port.py.

usage: respell.py [--check] ROOT

Words go to snake case (`policyOf`, `same-model`: `policy_of`, `same_model`), the folders `inner` and `cases` of specs/ to camel case.
A lemma that would have the name of a definition, or of a library's word that its file imports, gets `_lem`.
Names of a library keep their spelling, and so does what Rattle makes: what stands behind `tie.`, and dashed fields that no file declares.
ROOT/docs, README.md and the tests' texts are not touched.
"""
import collections
import os
import re
import sys

TOKEN = re.compile(r'[^\s(){}.;,@"«»]+')
DECLARED = re.compile(
    r'(?m)^ *(?:(?:abbrev|opaque|unfoldable|pub|instance|record|data)\s+)*([^\s(){}.;,@"«»]+)((?:\s+(?:\{[^{}]*\}|\([^()]*\)))*)\s+:(?=\s)'
)
USE = re.compile(r"(?m)^([ \t]*(?:ghost |pub |unfoldable )*use )([^\s{;]+?)(?:\.\{([^}]*)\})?(?: as ([^\s;]+))?(;?)[ \t]*$")
WORD = re.compile(r"^[a-zA-Z][\w'₀₁₂₃₄₅₆₇₈₉-]*$")
FOLDERS = {"inner": "Inner", "cases": "Cases"}
# local names that would hide a definition which their file uses
APART = {
    ("plan_tables/proofs/Cases.antt", "role-change"): "role_change_record",
    ("search/proofs/levels/search_levels/Proof.antt", "kept_of"): "kept_by",
    ("search_steps/proofs/targets/may_act/Proof.antt", "constraints-hold"): "constraints_held",
}
KEYWORDS = {"use", "module", "where", "let", "in", "record", "data", "abbrev", "pub", "unfoldable", "opaque", "unfolding", "mod"}


def files(root):
    for folder, dirs, names in os.walk(os.path.join(root, "crates")):
        dirs[:] = sorted(d for d in dirs if d not in ("out", "must-fail"))
        for f in sorted(names):
            if f.endswith((".antt", ".rt")):
                yield os.path.join(folder, f)


def read(path):
    with open(path, encoding="utf-8") as f:
        return f.read()


def without_comments(text, path):
    return re.sub(r"//.*" if path.endswith(".rt") else r"(?<![^\s(){}.;,])--.*", "", text)


def snake(name):
    if name[0].isupper():
        return name
    name = re.sub(r"(?<=[a-z0-9])([A-Z])", lambda m: "_" + m[1].lower(), name)
    name = re.sub(r"(?<=_[a-z])([A-Z])", lambda m: "_" + m[1].lower(), name)
    return name.replace("-", "_")


def is_camel(name):
    return name[0].islower() and re.search(r"[a-z0-9][A-Z]", name) is not None


def is_own(module, own):
    parts = module.split(".")
    return parts[0] == "Rattle" and len(parts) > 1 and parts[1] in own


class Names:
    def __init__(self, root):
        self.root = root
        self.crates = {c for c in os.listdir(os.path.join(root, "crates")) if os.path.isdir(os.path.join(root, "crates", c))}
        self.texts = {p: read(p) for p in files(root)}
        self.declared = collections.defaultdict(set)
        for p, t in self.texts.items():
            if p.endswith(".antt"):
                for m in DECLARED.finditer(without_comments(t, p)):
                    if m[1] not in KEYWORDS and WORD.match(m[1]):
                        self.declared[m[1]].add(p)
        self.libraries = {p: self.imported(p) for p in self.texts}
        self.new = self.choose()

    def imported(self, p):
        """What a file has from a library, under the name that it has there."""
        out = set()
        for m in USE.finditer(self.texts[p]):
            if not is_own(m[2], self.crates) and m[3]:
                out |= {x.strip().split(" as ")[-1].strip() for x in m[3].split(",")}
        return out

    def choose(self):
        groups = collections.defaultdict(set)
        for n in self.declared:
            groups[snake(n)].add(n)
        # where a name is used, and what its file has from a library
        used = collections.defaultdict(set)
        for p, t in self.texts.items():
            for x in set(TOKEN.findall(without_comments(t, p))):
                if x in self.declared:
                    used[x].add(p)
        new = {}
        for base, group in sorted(groups.items()):
            keeper = sorted(group, key=lambda n: (not is_camel(n), n != base, n))[0]
            for n in sorted(group):
                taken = any(base in self.libraries[p] and n not in self.libraries[p] for p in used[n]) if n != base else False
                to = base if n == keeper and not taken else base + "_lem"
                if n != keeper and len(group) > 2:
                    to = base + "_lem" + str(sorted(group - {keeper}).index(n) + 1)
                if to != n:
                    new[n] = to
                    if to.endswith("_lem") or "_lem" in to[-5:]:
                        print(f"lemma: {n} -> {to} (beside {', '.join(sorted(group - {n}))}{' library' if taken else ''})")
        return new

    def turned_word(self, word, dotted, p):
        apart = APART.get((os.path.relpath(p, os.path.join(self.root, "crates")), word))
        if apart and not dotted:
            return apart
        if word in self.libraries[p]:
            return word
        if word in self.new:
            return self.new[word]
        if word in self.declared or not WORD.match(word) or word[0].isupper():
            return word
        if not dotted and re.search(r"[a-zA-Z0-9]-[a-zA-Z0-9]", word):
            return snake(word)
        return word

    def turned_code(self, code, p):
        out, at = [], 0
        for m in TOKEN.finditer(code):
            dotted = m.start() > 0 and code[m.start() - 1] == "."
            tie = re.search(r"(?:^|[^\w.])(?:tie|goal)\.$", code[: m.start()][-8:]) is not None
            out.append(code[at : m.start()])
            out.append(m[0] if tie else self.turned_word(m[0], dotted, p))
            at = m.end()
        out.append(code[at:])
        return "".join(out)

    def turned_path(self, module):
        parts = module.split(".")
        if not is_own(module, self.crates):
            return module
        if len(parts) > 3 and parts[2] == "specs" and parts[3] in FOLDERS:
            parts[3] = FOLDERS[parts[3]]
        # the rest of a path is of modules, but where a `use` item names a declaration at its end
        if parts[-1] in self.new and len(parts) > 3:
            parts[-1] = self.new[parts[-1]]
        return ".".join(parts)

    def turned_use(self, m, p):
        names = m[3]
        if names is not None and is_own(m[2], self.crates):
            items = []
            for x in names.split(","):
                a, _, b = x.strip().partition(" as ")
                a = self.new.get(a, a)
                b = self.turned_word(b, False, p) if b else ""
                items.append(a + (" as " + b if b else ""))
            names = ", ".join(items)
        return m[1] + self.turned_path(m[2]) + ("" if names is None else ".{" + names + "}") + (" as " + m[4] if m[4] else "") + m[5]

    def turned(self, p):
        t = self.texts[p]
        if p.endswith(".rt"):
            t = USE.sub(lambda m: self.turned_use(m, p) if "ghost" in m[1] else m[0], t)
            camel = lambda m: self.new.get(m[0], m[0]) if is_camel(m[0]) else m[0]
            lines = []
            for line in t.split("\n"):
                lines.append(line if re.match(r"\s*(?:ghost )?use ", line) else re.sub(r"(?<![\w:])[a-z]\w*", camel, line))
            return "\n".join(lines)
        out = []
        for line in t.split("\n"):
            m = USE.match(line)
            if m:
                out.append(self.turned_use(m, p))
                continue
            m = re.match(r"^(\s*(?:pub )?mod )(\w+)\s*$", line)
            if m:
                out.append(m[1] + (FOLDERS.get(m[2], m[2]) if "/specs/" in p else m[2]))
                continue
            m = re.search(r"(?<![^\s(){};,])--.*$", line)
            code, note = (line[: m.start()], m[0]) if m else (line, "")
            note = re.sub(r"`([^`]*)`", lambda s: "`" + self.turned_code(s[1], p) + "`", note)
            note = re.sub(r"(?<![\w`.])[a-z]\w*[A-Z]\w*", lambda s: self.new.get(s[0], s[0]), note)
            out.append(self.turned_code(code, p) + note)
        return "\n".join(out)


def clashes(names):
    """Two words of one file that would become one."""
    for p, t in sorted(names.texts.items()):
        if not p.endswith(".antt"):
            continue
        by = collections.defaultdict(set)
        code = without_comments(t, p)
        for m in TOKEN.finditer(code):
            if m.start() and code[m.start() - 1] == ".":
                continue
            by[names.turned_word(m[0], False, p)].add(m[0])
        for to, old in sorted(by.items()):
            if len(old) > 1:
                print(f"clash: {os.path.relpath(p, names.root)}: {', '.join(sorted(old))} -> {to}")


def main(argv):
    check = "--check" in argv
    root = os.path.abspath([a for a in argv if not a.startswith("--")][0])
    names = Names(root)
    clashes(names)
    print(len(names.new), "names")
    if check:
        return 0
    new = {p: names.turned(p) for p in names.texts}
    for p, t in new.items():
        if t != names.texts[p]:
            with open(p, "w", encoding="utf-8") as f:
                f.write(t)
    for c in sorted(names.crates):
        for old, to in FOLDERS.items():
            for end in ("", ".antt"):
                a = os.path.join(root, "crates", c, "specs", old + end)
                if os.path.exists(a):
                    os.rename(a, os.path.join(root, "crates", c, "specs", to + end))
    with open(os.path.join(root, "tools", "respelled.tsv"), "w", encoding="utf-8") as f:
        f.writelines(f"{a}\t{b}\n" for a, b in sorted(names.new.items()))
    return 0


if __name__ == "__main__":
    raise SystemExit(main(sys.argv[1:]))
