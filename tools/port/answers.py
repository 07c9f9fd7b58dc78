#!/usr/bin/env python3
"""Turns each Proof.antt of the older form (tie.close (tie.spec ..)) of a crate into Invariants.antt and Answers.antt.
usage: answers.py CRATE-FOLDER NAMES.json [FUNCTION-PATH..]
"""
import json, os, re, sys

NAME = r"[^\s(){}.;,@\"«»\[\]]+"
TOK = re.compile(r"\s+|--[^\n]*|" + NAME + r"|.", re.S)
norm = lambda s: re.sub(r"[-_]", "", s).lower()
START = {"args": "args", "requires": "requires", "pre": "requires", "ranges": "ranges", "fits": "ranges", "well_formed": "well_formed", "lifetimes": "lifetimes", "utf8": "utf8"}


class Bad(Exception):
    pass


def blocks(text):
    """Top-level declarations: (comment lines, lines)."""
    out, notes, cur = [], [], []
    for line in text.split("\n"):
        if not line.strip():
            if cur:
                out.append((notes, cur)); notes, cur = [], []
            elif notes:
                out.append((notes, [])); notes = []
            continue
        if line.startswith("--") and not cur:
            notes.append(line)
        elif line.startswith("--") and cur:
            out.append((notes, cur)); notes, cur = [line], []
        else:
            cur.append(line)
    if cur or notes:
        out.append((notes, cur))
    return out


def split_args(s):
    """Splits an application into its arguments at depth 0."""
    out, cur, depth = [], "", 0
    for ch in s:
        if ch in "([{":
            depth += 1
        if ch in ")]}":
            depth -= 1
        if ch.isspace() and depth == 0:
            if cur:
                out.append(cur); cur = ""
            continue
        cur += ch
    if cur:
        out.append(cur)
    return out


class Function:
    def __init__(self, crate, path, info, text):
        self.crate, self.path, self.info, self.text = crate, path, info, text
        self.warn = []
        self.places = info["places"]
        self.names = info["places_by_name"]
        self.index = {}
        for i, p in enumerate(self.places):
            self.index.setdefault(norm(p[0]), i)
        self.parent = [None if p[1] is None else self.index_of(p[1]) for p in self.places]
        self.placefns = {}   # name -> (param, body tokens, from place)
        self.klemmas = {}
        self.renamed = set()
        self.steps = set()
        self.secenv = {}
        self.imports = set()
        self.inside = False
        self.parts = {}
        self.goals = {}

    def index_of(self, name):
        n = norm(name)
        if n in self.index:
            return self.index[n]
        # After-at2 and the like: with or without a count
        m = re.fullmatch(r"(.*?)(\d+)", n)
        if m and m[1] in self.index and m[2] in ("1",):
            return self.index[m[1]]
        # known steps were counted over all that are alike
        m = re.fullmatch(r"(after.*?)(\d+)", n)
        if m:
            alike = [i for i, p in enumerate(self.places) if re.fullmatch(re.escape(m[1]) + r"\d*", norm(p[0]))]
            if alike and int(m[2]) - 1 < len(alike):
                return alike[int(m[2]) - 1]
        raise Bad(f"no place {name}")

    def up(self, i, n):
        for _ in range(n):
            i = self.parent[i]
            if i is None:
                raise Bad("above the start")
        return i

    def depth_between(self, a, b):
        n = 0
        while a != b:
            a = self.parent[a]
            if a is None:
                return None
            n += 1
        return n

    # ---- expressions: a place is a number of steps above the root of the text that is read
    def rewrite(self, code, env, root, rootplace, goalname=None):
        saved = getattr(self, "path", None)
        self.path = [rootplace]
        while self.parent[self.path[-1]] is not None:
            self.path.append(self.parent[self.path[-1]])
        # a variable's place as a number of steps above the root
        env = {k: (0 if v == rootplace else v if isinstance(v, tuple) else self.depth(v)) for k, v in env.items()}
        env = {k: (v[0] if isinstance(v, tuple) else v) for k, v in env.items()}
        try:
            return self.rewritten(TOK.findall(code), env, root, goalname)
        finally:
            self.path = saved

    def depth(self, place):
        if place not in self.path:
            raise Bad(f"place {self.places[place][0]} is not above {self.places[self.path[0]][0]}")
        return self.path.index(place)

    def rewritten(self, toks, env, root, goalname):
        out = []
        i = 0
        env = dict(env)
        while i < len(toks):
            t = toks[i]
            if t == "let":
                j = self.skip(toks, i + 1)
                x = toks[j] if j < len(toks) else ""
                k = self.skip(toks, j + 1)
                if k < len(toks) and toks[k] == "=":
                    r = self.place(toks, self.skip(toks, k + 1), env)
                    if r:
                        end = self.skip(toks, r[1])
                        if end < len(toks) and toks[end] == "in":
                            env[x] = r[0]
                            i = self.skip(toks, end + 1)
                            continue
                        env.pop(x, None)
                        if end < len(toks) and toks[end] == ".":
                            e3 = end + 2
                            while toks[e3 : e3 + 1] == ["."]:
                                e3 += 2
                            f = toks[end + 1]
                            path = toks[end + 3 : e3 : 2]
                            if toks[self.skip(toks, e3)] == "in":
                                if self.arm_begins(f, path) and not self.of_arm(r[0], f, toks, end + 2):
                                    self.parts[x] = (r[0], f, path)
                                    i = self.skip(toks, self.skip(toks, e3) + 1)
                                    continue
                                if not path:
                                    self.steps.add(x)
                    else:
                        env.pop(x, None)
                out.append(t)
                i += 1
                continue
            behind_dot = bool(out) and out[-1] == "."
            r = self.place(toks, i, env) if (t in env or t == "(" or t in self.placefns) and not behind_dot else None
            if r:
                d, j = r
                if j + 1 < len(toks) and toks[j] == "." and not toks[j + 1].isspace():
                    f = toks[j + 1]
                    hit = self.of_arm(d, f, toks, j + 2)
                    if hit:
                        out.append(f"{root}.{hit[0]}")
                        i = hit[1]
                        continue
                    at, text = self.field(d, f, root)
                    out.append(text)
                    i = j + 2
                    i = self.after_field(toks, i, at, out)
                    continue
                out.append(self.handed(d, root, goalname, out))
                i = j
                continue
            if t in self.parts and not behind_dot and toks[i + 1 : i + 2] == ["."]:
                d, f, path = self.parts[t]
                more = [x for w in path for x in (".", w)]
                hit = self.of_arm(d, f, more + toks[i + 1 :], 0)
                if hit:
                    out.append(f"{root}.{hit[0]}")
                    i = i + 1 + hit[1] - len(more)
                    continue
            if "-" in t and len(out) > 1 and behind_dot and re.search(r"(?:^|\.)(args|initial|new|auto|ranges|fn)$", out[-2]):
                t = t.replace("-", "_")
            if t in self.steps and toks[i + 1 : i + 2] == ["."] and toks[i + 2] in ("inv", "post", "pre") and not behind_dot:
                out += [t, ".", {"inv": "invariant", "post": "ensures", "pre": "requires"}[toks[i + 2]]]
                i += 3
                continue
            if t in ("not-true", "not-false") and not behind_dot:
                a = self.arg(toks, i + 1)
                b = self.arg(toks, a[1]) if a else None
                if b:
                    out.append(self.rewritten(toks[self.skip(toks, a[1]) : b[1]], env, root, goalname))
                    i = b[1]
                    continue
            if t in ("not_no", "not_yes") and not behind_dot:
                t = {"not_no": "no_of", "not_yes": "yes_of"}[t]
                self.renamed.add(t)
            out.append(t)
            i += 1
        return "".join(out)

    def after_field(self, toks, i, p, out):
        """What follows a step: its older short names."""
        if toks[i : i + 1] != ["."] or p is None:
            return i
        f, name, step = toks[i + 1], self.places[p][0], self.places[p][2][0]
        if f == "inv" and name.startswith("At"):
            out.append(".invariant")
            return i + 2
        if f in ("taken", "left") and re.match(r"if\d*$|.*test\d*$", step):
            out.append(".true" if f == "taken" else ".false")
            return i + 2
        if f == "post" and name.startswith("After"):
            out.append(".ensures")
            return i + 2
        if f == "branch" and (name.startswith("Joined") or name.endswith("-branch")):
            out.append(".branch-raw")
            return i + 2
        arm = self.info["arms"][p]
        if arm:
            for new, old, path in arm[2]:
                if not path and norm(old) == norm(step):
                    out.append("." + new)
                    return i
        return i

    def handed(self, d, root, goalname, out):
        """A place that is handed to a lemma over a place."""
        k = len(out) - 1
        while k >= 0 and out[k].isspace():
            k -= 1
        fn = out[k] if k >= 0 else ""
        target = self.klemmas.get(fn)
        if target is None:
            target = self.path[min(d, len(self.path) - 1)]
        if target == self.path[0] and root != "c":
            return root
        if goalname is None:
            goalname = self.names[self.path[0]]
        if target not in self.path:
            raise Bad(f"{fn}: {self.places[target][0]} is not above")
        return f"(goal.at.{goalname} {root}).{self.names[target]}"

    def skip(self, toks, i):
        while i < len(toks) and toks[i].isspace():
            i += 1
        return i

    def place(self, toks, i, env):
        """A place expression at i: (steps above the root, index behind it)."""
        if i >= len(toks):
            return None
        t = toks[i]
        if t in env and env[t] is not None:
            d, j = env[t], i + 1
        elif t == "(":
            r = self.place(toks, self.skip(toks, i + 1), env)
            if not r:
                return None
            d, j = r
            j = self.skip(toks, j)
            if j >= len(toks) or toks[j] != ")":
                return None
            j += 1
        elif t in self.placefns:
            r = self.place(toks, self.skip(toks, i + 1), env)
            if not r:
                return None
            return self.apply(t, r[0]), r[1]
        else:
            return None
        while j + 1 < len(toks) and toks[j] == "." and toks[j + 1] == "before":
            d += 1
            j += 2
        return d, j

    def apply(self, fn, d):
        target = self.placefns[fn]
        if target in self.path:
            return self.path.index(target)
        raise Bad(f"{fn} leads to {self.places[target][0]}, which is not above")

    def closest(self, d, fits):
        """The place of the path that fits and is closest to the d-th."""
        hits = [k for k, p in enumerate(self.path) if fits(p)]
        return self.path[min(hits, key=lambda k: (abs(k - d), k))] if hits else None

    def field(self, d, f, root):
        if f in START:
            return None, f"{root}.{START[f]}"
        g = re.sub(r"_lem\d?$", "", f)
        for fit in (
            lambda p: norm(self.places[p][2][0]) in (norm(f), norm(g)),
            lambda p: norm(self.places[p][2][0]) == norm(re.sub(r"\d+$", "", g)),
            lambda p: norm(re.sub(r"\d+$", "", self.places[p][2][0])) == norm(re.sub(r"\d+$", "", g)),
        ):
            p = self.closest(d, lambda q: self.parent[q] is not None and fit(q))
            if p is not None:
                return p, f"{root}.{self.places[p][2][1]}"
        self.warn.append(f"no field {f} above {self.places[self.path[0]][0]}")
        return None, f"{root}.{f}"

    def arm_begins(self, f, path):
        for p in self.path:
            arm = self.info["arms"][p]
            if arm and any(norm(o) == norm(re.sub(r"\d+$", "", f)) and q[: len(path)] == path and len(q) > len(path) for _, o, q in arm[2]):
                return True
        return False

    def of_arm(self, d, f, toks, j):
        """A field of a match's step, as its arm has it: (its path, the index behind it)."""
        for k in sorted(range(len(self.path)), key=lambda k: (abs(k - d), k)):
            arm = self.info["arms"][self.path[k]]
            if not arm:
                continue
            for new, old, path in arm[2]:
                if norm(old) not in (norm(f), norm(re.sub(r"\d+$", "", f))) or not path:
                    continue
                want = [x for w in path for x in (".", w)]
                if toks[j : j + len(want)] == want:
                    return f"{arm[0]}.{new}", j + len(want)
        return None

    def arg(self, toks, i):
        """One argument of an application: (start, end)."""
        i = self.skip(toks, i)
        if i >= len(toks):
            return None
        j = i
        if toks[j] == "(":
            d = 0
            while True:
                d += (toks[j] == "(") - (toks[j] == ")")
                j += 1
                if d == 0:
                    break
        else:
            j += 1
        while j + 1 < len(toks) and toks[j] == ".":
            j += 2
        return i, j

    def named(self, p):
        self.imports.add(self.names[p])
        return self.names[p]

    def in_section(self, section, notes, lines, out):
        """A declaration of a section over the place K."""
        K, P, _ = section
        text = "\n".join(lines)
        m = re.match(r"  (?:abbrev )?(" + NAME + r") : tie\.(" + NAME + r")[^\n]*\n  \1 ?[^\n=]*= ?(.*)$", text, re.S)
        if m:
            self.placefns[m[1]] = self.index_of(m[2])
            self.secenv[m[1]] = self.placefns[m[1]]
            return
        name = re.match(r"\s*(?:abbrev |unfoldable |pub )*(" + NAME + ")", text)[1]
        if "tie." in text:
            raise Bad(f"{name}: of another form in a section")
        body = self.rewrite(text, {K: P, **self.secenv}, K, P)
        self.klemmas[name] = P
        if out and len(out) > 1:
            out.append("")
        out += notes + [body]

    def need(self, name):
        """The goal of a tie.Need-NAME."""
        n = norm(name)
        for cand in (n, re.sub(r"^overflow", "", n), re.sub(r"^nonzero", "", n), re.sub(r"^(slice|element|array|shared)", "", n)):
            for k, (old, new) in enumerate(self.info["needs"]):
                if norm(old) == cand:
                    return k
        return None

    def convert(self):
        uses, inv, ans, plain = [], [], [], []
        decls = []
        for notes, lines in blocks(self.text):
            if lines and re.match(r"(pub )?use ", lines[0]):
                uses += [l for l in lines if re.match(r"(pub )?use ", l)]
                rest = [l for l in lines if not re.match(r"(pub )?use ", l)]
                head = notes
                if notes:
                    decls.append((notes, []))
                if rest:
                    decls.append(([], rest))
                continue
            decls.append((notes, lines))
        uses = [u for u in uses if not re.search(r"\.(Statement\.\{statement\}|Tie as tie)$", u)]
        loops = self.info["loops"]
        changed = self.info["changed"]
        # the order of the answers
        spec = None
        for notes, lines in decls:
            t = "\n".join(lines)
            if "tie.close" in t:
                spec = t
        if spec is None:
            raise Bad("no tie.close")
        m = re.search(r"tie\.close\s+\(tie\.spec(.*)\)\s*$", spec, re.S)
        if not m:
            raise Bad("tie.close of another form")
        args = split_args(m[1])
        nl = len(loops)
        # invariants and measures first
        invnames = {}
        rest = list(args)
        lead = []
        for a in list(rest):
            if re.match(r"(invariant|decreases)[-_]", a):
                lead.append(a)
                rest.remove(a)
        needs = self.info["needs"]
        by_position = {}
        if len(rest) == len(needs):
            for k, a in enumerate(rest):
                by_position.setdefault(a, []).append(k)
        else:
            self.warn.append(f"{len(rest)} answers for {len(needs)} goals")
        outs_plain, outs_ans, outs_inv = [], [], []
        self.top = []
        while decls and not decls[0][1]:
            self.top += decls.pop(0)[0]
        used_goals = set()

        def loop_of(word):
            n = norm(re.sub(r"^(tie\.)?(invariant|decreases)[-_]", "", word))
            for k, ((old, new), vs) in enumerate(loops):
                if norm(old) == n:
                    return k
            raise Bad(f"no loop {word}")

        def do_decl(notes, lines, env, root, rootplace, indent):
            t = "\n".join(lines)
            if not lines:
                return ("plain", notes, "")
            sig = re.match(r"\s*((?:abbrev |unfoldable |pub )*)(" + NAME + r")(.*?) :\s", t, re.S)
            if not sig:
                return ("plain", notes, t)
            name = sig[2]
            if "tie.invariant-" in t or "tie.decreases-" in t:
                w = re.search(r"tie\.((?:invariant|decreases)-" + NAME + ")", t)[1]
                k = loop_of(w)
                (old, new), vs = loops[k]
                body = re.search(r"(?m)^" + re.escape(name) + r"((?: [^\s=]+)*) =\s?(.*)$", t, re.S | re.M)
                m2 = re.search(r"\n" + re.escape(name) + r"((?: [^\s=]+)*) =(.*)$", t, re.S)
                params = m2[1].split()
                bodytext = m2[2].strip()
                ch = changed[k]
                sub = {}
                if len(params) != len(vs) + sum(ch):
                    self.warn.append(f"{w}: {len(params)} parameters for {len(vs)}+{sum(ch)}")
                cv = [v for v, c in zip(vs, ch) if c]
                for q, x in enumerate(params):
                    if q < len(vs):
                        sub[x] = ("l.initial." if ch[q] else "l.") + vs[q]
                    elif q - len(vs) < len(cv):
                        sub[x] = "l." + cv[q - len(vs)]
                kind = "invariant" if w.startswith("inv") else "decreases"
                return ("inv", notes, f"abbrev pub {kind}-{new} : goal.{kind}-{new}\n{kind}-{new} l =" + ("\n    " if "\n" in bodytext or len(bodytext) > 80 else " ") + substitute(bodytext, sub))
            mneed = re.search(r"tie\.Need-(" + NAME + ")", t)
            if mneed:
                ks = by_position.get(name)
                k = self.need(mneed[1])
                if ks and k not in ks:
                    if k is not None:
                        self.warn.append(f"{name}: by position {[needs[z] for z in ks]}, by name {needs[k]}")
                    k = ks[0]
                if k is None:
                    raise Bad(f"no goal for {mneed[1]}")
                ks = ks or [k]
                m2 = re.search(r"\n" + re.escape(name) + r"((?: [^\s=]+)*) =(.*)$", t, re.S)
                params = m2[1].split()
                unf = re.search(r"\n\s*(unfolding[^\n]*)", t[: m2.start() + 1])
                more = "".join(" " + x for x in params[1:] if x != "κs")
                res = []
                for kk in ks:
                    goal = needs[kk][1]
                    place = self.index_of(self.info["asked_at"][kk][0])
                    body = self.rewrite(m2[2], {params[0]: place} if params else {}, "c", place, goal)
                    used_goals.add(goal)
                    for name in ("K", "K2", "K3", "K4"):
                        many = [x for x in set(re.findall(r"\(goal\.at\.\S+ c\)\." + NAME, body)) if body.count(x) > 1]
                        if not many:
                            break
                        one = sorted(many)[0]
                        body = f"\n    let {name} = {one} in" + (body if body.startswith("\n") else "\n   " + body).replace(one, name)
                    res.append(f"pub {goal} : goal.{goal}\n" + (unf[1] + "\n" if unf else "") + f"{goal} c{more} =" + body)
                return ("ans", notes, "\n\n".join(res))
            # place function
            mfn = re.match(r"abbrev (" + NAME + r") : tie\.[^→]*→ tie\.[^\n]*\n\1 (" + NAME + r") = (.*)$", t, re.S)
            if mfn:
                self.placefns[mfn[1]] = self.index_of(re.search(r"→ tie\.(" + NAME + ")", t)[1])
                return ("none", [], "")
            mk = re.search(r"\((" + NAME + r") : tie\.(" + NAME + r")[^()]*\)", t[: t.find("\n" + name + " ")] if ("\n" + name + " ") in t else t)
            if mk:
                K, P = mk[1], self.index_of(mk[2])
                if P == 0:
                    raise Bad(f"{name}: a lemma over the start")
                self.klemmas[name] = P
                typ = f"({K} : {self.named(P)})"
                cut = t.index("\n" + name + " ")
                head, body = t[:cut], t[cut:]
                head = head[: mk.start()] + "@@" + head[mk.end():]
                head = self.rewrite(head, {K: P}, K, P).replace("@@", typ)
                m2 = re.match(r"\n" + re.escape(name) + r"((?: [^=]+?)?) =(.*)$", body, re.S)
                body = "\n" + name + m2[1] + " =" + self.rewrite(m2[2], {K: P}, K, P)
                return ("plain", notes, head + body)
            if "tie." in t:
                raise Bad(f"{name}: of another form")
            return ("plain", notes, t)

        section, seclines, secnotes = None, [], []
        for notes, lines in decls:
            t = "\n".join(lines)
            if "tie.close" in t:
                if section is not None and section[1] >= 0 and len(seclines) > 1:
                    outs_plain.append("\n".join(secnotes + seclines))
                    section = None
                continue
            if t.startswith("module _") and section is None:
                m = re.match(r"module _ \((" + NAME + r") : tie\.(" + NAME + r")[^()]*\)((?: |\n)*(?:[({][^\n]*)?) where$", lines[0])
                if not m:
                    raise Bad("a section of another form")
                try:
                    section = (m[1], self.index_of(m[2]), m[3])
                except Bad as e:
                    section = (m[1], -1, m[3])
                    self.warn.append(f"a section left out: {e}")
                if section[1] == 0:
                    self.warn.append("a section left out: over the start")
                    section = (m[1], -1, m[3])
                seclines = [f"module _ ({m[1]} : {self.named(section[1])}){m[3]} where" if section[1] >= 0 else ""]
                lines = lines[1:]
                if not lines:
                    secnotes = notes
                    continue
                secnotes = notes
                notes = []
            if section is not None:
                if lines and lines[0].startswith("  "):
                    if section[1] >= 0:
                        try:
                            self.in_section(section, notes, lines, seclines)
                        except Bad as e:
                            self.warn.append(f"left out of a section: {lines[0].strip()[:80]}: {e}")
                    continue
                if not lines and notes:
                    pass
                if section[1] >= 0 and len(seclines) > 1:
                    outs_plain.append("\n".join(secnotes + seclines))
                section = None
                if t.startswith("module _"):
                    raise Bad("a second section")
            try:
                kind, n, text = do_decl(notes, lines, {}, "c", None, 0)
            except Bad as e:
                self.warn.append(f"left out: {lines[0].strip()[:80]}: {e}")
                continue
            if kind == "none":
                continue
            piece = "\n".join(n + ([text] if text else []))
            {"plain": outs_plain, "ans": outs_ans, "inv": outs_inv}[kind].append(piece)
        # answers that stand in the call itself
        for k, a in enumerate(rest):
            if len(rest) != len(needs):
                break
            m3 = re.fullmatch(r"\(λ (" + NAME + r")((?: " + NAME + r")*)\. (.*)\)", a, re.S)
            if not m3 or m3[3].strip() == "search rules":
                continue
            goal = needs[k][1]
            place = self.index_of(self.info["asked_at"][k][0])
            try:
                self.rewrite(m3[3], {m3[1]: place}, "c", place, goal)
            except Bad as e:
                self.warn.append(f"left out: {goal}: {e}")
                continue
            outs_ans.append(f"pub {goal} : goal.{goal}\n{goal} c = " + self.rewrite(m3[3], {m3[1]: place}, "c", place, goal))
        return uses, outs_inv, outs_plain, outs_ans


def substitute(body, sub):
    toks = TOK.findall(body)
    out = []
    for i, t in enumerate(toks):
        after = next((x for x in toks[i + 1 :] if not x.isspace()), "")
        before = next((x for x in reversed(toks[:i]) if not x.isspace()), "")
        if t in sub and not (i and toks[i - 1] == ".") and not (after == "=" and before in "{;"):
            out.append(sub[t])
        else:
            out.append(t)
    return "".join(out)


def words(text):
    return set(re.findall(NAME, text))


def trimmed(uses, text):
    """The use lines that text needs."""
    out, w = [], words(text)
    for u in uses:
        m = re.fullmatch(r"use (\S+)\.\{(.*)\}", u)
        if not m:
            out.append(u)
            continue
        keep = []
        for x in m[2].split(","):
            x = x.strip()
            n = x.split(" as ")[-1]
            bits = [b for b in re.split("◌", n) if b]
            if n in w or any(b in w or b in text for b in bits) and "◌" in n:
                keep.append(x)
        if keep:
            out.append("use " + m[1] + ".{" + ", ".join(keep) + "}")
    return out


def main():
    folder, names = sys.argv[1], json.load(open(sys.argv[2]))
    only = sys.argv[3:]
    crate = os.path.basename(os.path.abspath(folder))
    n = bad = 0
    for d, _, fs in sorted(os.walk(os.path.join(folder, "proofs"))):
        if "Proof.antt" not in fs:
            continue
        path = os.path.relpath(d, os.path.join(folder, "proofs")).replace("/", ".")
        if only and path not in only:
            continue
        text = open(os.path.join(d, "Proof.antt"), encoding="utf-8").read()
        if "tie.close" not in text:
            print(f"by hand: {path}: no tie"); bad += 1
            continue
        info = names.get(f"Rattle-{crate}-proofs.{path}.Lts")
        if info is None:
            print(f"by hand: {path}: no names"); bad += 1
            continue
        f = Function(crate, path, info, text)
        try:
            uses, inv, plain, ans = f.convert()
            uses = [re.sub(r"\bnot_no\b", "not_no, no_of", re.sub(r"\bnot_yes\b", "not_yes, yes_of", u)) for u in uses]
        except Bad as e:
            print(f"by hand: {path}: {e}"); bad += 1
            continue
        except Exception as e:
            print(f"by hand: {path}: {type(e).__name__} {e}"); bad += 1
            continue
        for w in f.warn:
            print(f"warning: {path}: {w}")
        # plain declarations that an invariant cites stand with the invariants
        invtext = "\n".join(inv)
        early = []
        again = True
        while again:
            again = False
            for p in list(plain):
                m = re.search(r"(?m)^(?:abbrev |unfoldable |pub )*(" + NAME + r")[^\n]*? :", p)
                if m and m[1] in words(invtext + "\n".join(early)):
                    early.append(p); plain.remove(p); again = True
        goal = f"use Rattle.{crate}.proofs.{path}."
        if inv:
            early_names = []
            ee = []
            for p in early:
                m = re.search(r"(?m)^((?:abbrev |unfoldable |pub )*)(" + NAME + r")", "\n".join(l for l in p.split("\n") if not l.startswith("--")))
                early_names.append(m[2])
                if "pub" not in m[1]:
                    p = re.sub(r"(?m)^((?:abbrev |unfoldable )?)(" + re.escape(m[2]) + r"\b[^\n]*? :)", r"\1pub \2", p, count=1)
                ee.append(p)
            body = "\n\n".join(ee + inv)
            open(os.path.join(d, "Invariants.antt"), "w", encoding="utf-8").write("\n".join(f.top + trimmed(uses, body) + [goal + "Given as goal"]) + "\n\n" + body + "\n")
        if ans:
            body = "\n\n".join(plain + ans)
            extra = [goal + "Goals.{" + ", ".join(sorted(f.imports)) + "}"] if f.imports else []
            if inv and early:
                cited = [x for x in early_names if x in words(body)]
                if cited:
                    extra += [goal + "Invariants.{" + ", ".join(cited) + "}"]
            open(os.path.join(d, "Answers.antt"), "w", encoding="utf-8").write("\n".join(([] if inv else f.top) + trimmed(uses, body) + extra + [goal + "Goals as goal"]) + "\n\n" + body + "\n")
        elif plain and any(re.search(r" : ", p) for p in plain):
            print(f"note: {path}: lemmas without answers dropped")
        os.remove(os.path.join(d, "Proof.antt"))
        n += 1
    print(f"{crate}: {n} turned, {bad} by hand")


main()
