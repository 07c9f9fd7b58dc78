#!/usr/bin/env python3
"""branch.py CRATE-FOLDER F.PATH..: `⊎_elim f g c.X.branch-raw` becomes `elim c.X.branch [ .. ]`, with the fields of each branch by name."""
import os, re, subprocess, sys, tempfile
NAME = r"[^\s(){}.;,@\"«»\[\]]+"
folder = os.path.abspath(sys.argv[1]); crate = os.path.basename(folder)

def closing(s, i):
    d = 0
    for k in range(i, len(s)):
        d += (s[k] in "([{") - (s[k] in ")]}")
        if d == 0:
            return k
    raise ValueError

def atom(s, i):
    """the atom that begins at i (after blanks): (start, end)"""
    while s[i].isspace():
        i += 1
    j = i
    if s[j] == "(":
        j = closing(s, j) + 1
    else:
        j = re.compile(NAME).match(s, j).end()
    while j < len(s) and s[j] == ".":
        j = re.compile(NAME).match(s, j + 1).end()
    return i, j

def arms(s, i):
    """⊎_elim at i: ([bodies], scrutinee, end) ; a nested one as second argument gives more bodies"""
    assert s.startswith("⊎_elim", i)
    j = i + len("⊎_elim")
    a = atom(s, j); b = atom(s, a[1])
    A, B = s[a[0]:a[1]], s[b[0]:b[1]]
    bodies = [A]
    inner = B[1:-1].strip() if B.startswith("(") else B
    if inner.startswith("⊎_elim"):
        # two arguments only
        sub, end = [], None
        k = len("⊎_elim")
        x = atom(inner, k); y = atom(inner, x[1])
        if inner[y[1]:].strip() == "":
            bodies += arms(B[1:-1].strip() + " DUMMY", 0)[0]
        else:
            bodies.append(B)
    else:
        bodies.append(B)
    return bodies, b[1]

def generated(fn):
    d = tempfile.mkdtemp()
    r = subprocess.run(["rt", "check", "--generated", d, "--start", fn.replace(".", "::")], cwd=folder, stdout=subprocess.PIPE, stderr=subprocess.STDOUT, text=True)
    p = os.path.join(d, f"Rattle-{crate}-proofs", *fn.split("."), "Lts.antt")
    if not os.path.exists(p):
        print(r.stdout[-800:]); return None
    return open(p).read()

for fn in sys.argv[2:]:
    ans = os.path.join(folder, "proofs", *fn.split("."), "Answers.antt")
    text = open(ans).read()
    lts = generated(fn)
    if lts is None:
        print("no Lts", fn); continue
    lines = lts.split("\n")
    recs, steps, joined = {}, {}, {}
    k = 0
    while k < len(lines):
        m = re.match(r"\s*pub record (By-\d+-(\S+?)-(\S+)) : ", lines[k]) or re.match(r"\s*pub record (By-\d+-(\S+)) : ", lines[k])
        m0 = re.match(r"\s*pub record (By-\S+|Step-\S+|Own-\S+|\S+) ?:? ?", lines[k])
        if m0 and "pub record" in lines[k]:
            name = m0[1]
            ind = len(lines[k]) - len(lines[k].lstrip())
            fields = []
            j = k + 1
            while j < len(lines) and (not lines[j].strip() or len(lines[j]) - len(lines[j].lstrip()) > ind):
                f = re.match(r"\s{%d}pub (%s) :(.*)" % (ind + 2, NAME), lines[j])
                if f:
                    fields.append((f[1], f[2].strip()))
                j += 1
            recs[name] = fields
        k += 1
    # step name -> place
    by_step = {}
    for name, fields in recs.items():
        for f, typ in fields:
            m = re.match(r"Step-(\S+)", typ)
            if m and recs.get("Step-" + m[1]) and any(x == "branch" for x, _ in recs["Step-" + m[1]]):
                by_step[f] = m[1]
    ctors = {}
    recs_places = [n[len("Step-"):] for n in recs if n.startswith("Step-")] + [n for n in recs if re.match(r"Joined\d*|At-", n)]
    for name in recs:
        m = re.match(r"By-\d+-(.*)$", name)
        if m:
            fit = [pl for pl in recs_places if m[1].startswith(pl + "-")]
            for place in sorted(fit, key=len)[-1:]:
                if True:
                    c = m[1][len(place) + 1:]
                    ctors.setdefault(place, []).append((c, [f for f, _ in recs[name]]))
    imports = set()
    guard = 0
    while True:
        m = re.search(r"c\.(" + NAME + r")\.branch-raw", text)
        if not m or guard > 20:
            break
        guard += 1
        # the ⊎_elim whose scrutinee this is
        starts = [x.start() for x in re.finditer("⊎_elim", text) if x.start() < m.start()]
        done = False
        for s in reversed(starts):
            try:
                bodies, end = arms(text, s)
            except Exception:
                continue
            try:
                a = atom(text, end) if end < len(text) else None
            except Exception:
                continue
            if a and text[a[0]:a[1]] == m[0]:
                place = by_step.get(m[1])
                cs = ctors.get(place)
                if not cs or len(cs) != len(bodies):
                    print(f"{fn}: {m[1]}: {len(bodies)} bodies, constructors {[x for x, _ in cs] if cs else None}")
                    text = text.replace(m[0], m[0].replace("branch-raw", "branch-RAW"), 1)
                    done = True
                    break
                out = []
                for body, (ctor, fields) in zip(bodies, cs):
                    b = body[1:-1].strip() if body.startswith("(") and closing(body, 0) == len(body) - 1 else body
                    lam = re.match(r"λ \(?(" + NAME + r")(?: : [^)]*\))?\.\s*(.*)$", b, re.S)
                    if lam:
                        w, rest = lam[1], lam[2]
                    else:
                        w, rest = "w", f"{body} w"
                    used = [int(x) for x in re.findall(r"(?<![\w.])" + re.escape(w) + r"\.(\d+)(?![\w-])", rest)]
                    shift = max(0, max(used, default=0) - (len(fields) - 1))
                    def field(mm):
                        n = max(0, int(mm[1]) - shift)
                        if n >= len(fields):
                            print(f"{fn}: {ctor}: no field {n}: {fields}")
                            return mm[0]
                        f = fields[n]
                        # Rattle's own name of a variable's value: its equation is meant
                        own = re.match(r"(.*?)(?:-\d+)+$", f)
                        if own and own[1] + "-is" in fields:
                            f = own[1] + "-is"
                        return f"{w}.{f}"
                    rest = re.sub(r"(?<![\w.])" + re.escape(w) + r"\.(\d+)(?![\w-])", field, rest)
                    tests = [f for f in fields if f.startswith("if-") or f.endswith("-test")]
                    if tests:
                        rest = re.sub(r"(?<![\w.])" + re.escape(w) + r"\.(taken|left)\b", lambda mm: f"{w}.{tests[0]}." + ("true" if mm[1] == "taken" else "false"), rest)
                    rest = re.sub(r"(" + re.escape(w) + r"\.(?:if-|" + NAME + r"-test)[^\s().,;]*)\.taken\b", r"\1.true", rest)
                    rest = re.sub(r"(" + re.escape(w) + r"\.(?:if-|" + NAME + r"-test)[^\s().,;]*)\.left\b", r"\1.false", rest)
                    rest = re.sub(r"(" + re.escape(w) + r"\.in[-_][^\s().,;]*)\.(?:given\.1|keys\d+)\b", r"\1.is", rest)
                    out.append(f"{ctor} {w} ↦ {rest.strip()}")
                    imports.add(ctor)
                text = text[:s] + f"elim c.{m[1]}.branch [\n      " + "\n    | ".join(out) + " ]" + text[a[1]:]
                done = True
                break
        if not done:
            print(f"{fn}: {m[0]}: no ⊎_elim around it")
            text = text.replace(m[0], m[0].replace("branch-raw", "branch-RAW"), 1)
    text = text.replace("branch-RAW", "branch-raw")
    if imports:
        use = f"use Rattle.{crate}.proofs.{fn}.Goals.{{" + ", ".join(sorted(imports)) + "}"
        text = text.replace(f"use Rattle.{crate}.proofs.{fn}.Goals as goal", use + f"\nuse Rattle.{crate}.proofs.{fn}.Goals as goal")
        if "⊎_elim" not in re.sub(r"(?m)^use .*$", "", text):
            text = re.sub(r"⊎_elim, |, ⊎_elim(?=})", "", text)
            text = re.sub(r"(?m)^use \S+\.\{⊎_elim\}\n", "", text)
    open(ans, "w").write(text)
subprocess.run(["rt", "fmt"], cwd=folder, stdout=subprocess.DEVNULL, stderr=subprocess.DEVNULL)
