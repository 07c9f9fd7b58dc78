#!/usr/bin/env python3
"""notfix.py CRATE-FOLDER LOG: where a lemma still takes `not b ≡ t` and the answer has `b ≡ u`, the answer says `ap not`. LOG is what a check said."""
import os, re, sys
folder = os.path.abspath(sys.argv[1]); crate = os.path.basename(folder)
said = open(sys.argv[2]).read()
fixes = {}
for m in re.finditer(r"(?m)^\./(proofs/\S+?\.antt):(\d+):(\d+): error: `[^`]*`: as printed, the two types first differ where one has `\((?:mathlib\.Core\.Bool\.)?not [^`]*`\s*\(expected\)", said):
    fixes.setdefault(m[1], []).append((int(m[2]), int(m[3])))
for f, places in fixes.items():
    p = os.path.join(folder, f)
    lines = open(p).read().split("\n")
    for l, c in sorted(places, reverse=True):
        s = lines[l - 1]
        m = re.compile(r"[^\s(){},;]+").match(s, c - 1)
        if m and not s[: c - 1].endswith("(ap not "):
            lines[l - 1] = s[: c - 1] + "(ap not " + m[0] + ")" + s[m.end():]
            print(f, l, m[0])
    t = "\n".join(lines)
    head = t.split("\n\n")[0]
    if not re.search(r"mathlib\.Core\.Bool\.\{[^}]*\bnot\b", t):
        t = re.sub(r"(?m)^use mathlib\.Core\.Bool\.\{", "use mathlib.Core.Bool.{not, ", t, count=1) if re.search(r"(?m)^use mathlib\.Core\.Bool\.\{", t) else re.sub(r"(?m)^use ", "use mathlib.Core.Bool.{not}\nuse ", t, count=1)
    if not re.search(r"mathlib\.Core\.Path\.\{[^}]*\bap\b", t):
        t = re.sub(r"(?m)^use mathlib\.Core\.Path\.\{", "use mathlib.Core.Path.{ap, ", t, count=1) if re.search(r"(?m)^use mathlib\.Core\.Path\.\{", t) else re.sub(r"(?m)^use ", "use mathlib.Core.Path.{ap}\nuse ", t, count=1)
    open(p, "w").write(t)
