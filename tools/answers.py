#!/usr/bin/env python3
"""Turns a proof that walks the code by hand (proofs/F/Proof.antt) into Invariants.antt and Answers.antt, as far as names alone say how.

usage: tools/answers.py NAMES.JSON CRATE [F..]      F: folders below proofs/, as role/gives_way; none: each that has a Proof.antt

NAMES.JSON is what `rt check --generated DIR --old-names` writes for CRATE, the crate's folder. The old file stays as Proof.antt.txt beside
the new ones, to be removed by hand when the function is proved. What the names do not say is marked TODO."""
import glob
import json
import os
import re
import sys

WORD = re.compile(r"[^\s(){}.;,@\"«»\[\]|:]+")
norm = lambda s: re.sub(r"[-_]", "", s).lower()
OLD = [("overflow-", ""), ("loop-holds", "loop-init"), ("loop-less", "loop-smaller"), ("loop-again", "loop-preserved"), ("slice-bounds", "part")]


def blocks(text):
    """The top-level pieces of a file: a signature with its definition, a module with what is in it, a comment with what follows."""
    out, cur, name = [], [], None
    for line in text.split("\n"):
        starts = line and not line[0].isspace() and not line.startswith(("}", ")", "]"))
        first = line.split(" ")[0] if starts else None
        joined = first in ("unfolding", "rules") or (name and first == name) or all(c.startswith("--") for c in cur)
        if starts and cur and not joined:
            out.append("\n".join(cur).rstrip())
            cur, name = [], None
        if starts and not line.startswith("--") and name is None:
            words = [w for w in line.split(" ") if w not in ("abbrev", "pub", "unfoldable")]
            name = words[0] if len(words) > 1 and (words[1] == ":" or words[1].startswith(("{", "("))) else (words[0] if len(words) == 1 else None)
            if line.rstrip().endswith(" :"):
                name = words[0]
        cur.append(line)
    out.append("\n".join(cur).rstrip())
    return [b for b in out if b.strip()]


class Function:
    def __init__(self, of):
        self.of = of
        self.place = {}
        for old, new in zip(of["places"], of["places_by_name"]):
            self.place[norm(old[0])] = new
        self.step = {}
        for old in of["places"]:
            self.step.setdefault(norm(old[2][0]), old[2][1])
        self.arm = {}
        for arm in of["arms"]:
            if arm:
                for field, step, path in [(f + [[]])[:3] for f in arm[2]]:
                    if path:
                        self.arm[(norm(step), *path)] = (arm[0], field)
        self.need = {}
        for old, new in of["needs"]:
            self.need[norm(old)] = new
        self.at = {new: at for (old, new), at in zip(of["needs"], of["asked_at"])}
        self.loops = {norm(l[0][0]): (l[0][1], l[1], ch) for l, ch in zip(of["loops"], of["changed"])}

    def needed(self, name):
        n = name
        for a, b in OLD:
            n = n.replace(a, b)
        return self.need.get(norm(n))

    def term(self, text):
        """Paths in a term: no .before, steps and arms by their new names."""
        def path(m):
            head, segs = m.group(1), [s for s in m.group(2).split(".")[1:] if s != "before"]
            if not segs:
                return head
            if head.endswith(("args", "requires")) or segs[0] in ("args", "requires", "invariant"):
                return head + "." + ".".join(segs)
            first = norm(segs[0].strip("«»"))
            for n in range(len(segs), 0, -1):
                hit = self.arm.get((first, *segs[1:n]))
                if hit:
                    return ".".join([head, *hit, *segs[n:]])
            if first in self.step:
                new = self.step[first]
                segs[0] = new
            return head + "." + ".".join(segs)
        return re.sub(r"((?<![\w'.-])[\w'₀-₉-]+|\))((?:\.[\w«»'-]+)+)", path, text)


def convert(names, crate, folder):
    base = os.path.join(crate, "proofs", folder)
    source = os.path.join(base, "Proof.antt")
    text = open(source, encoding="utf-8").read()
    name = os.path.basename(crate.rstrip("/"))
    dotted = folder.replace("/", ".")
    key = f"Rattle-{name}-proofs.{dotted}.Lts"
    if key not in names:
        print(f"{folder}: no names")
        return
    f = Function(names[key])
    head, uses, invariants, answers, wanted = [], [], [], [], set()
    # The lemmas that take what is known at a place, by that place.
    takes = {}
    for b in blocks(text):
        place = re.search(r"tie\.(?!Need-)([\w-]+)", b)
        if place and f.place.get(norm(place.group(1))) and not re.search(r": tie\.Need-|: tie\.(?:invariant|decreases)", b):
            if re.search(r"(?m)^module _", b):
                for n in re.findall(r"(?m)^  (?:abbrev |pub |unfoldable )*([\w'-]+) :", b):
                    takes[n] = f.place[norm(place.group(1))]
            else:
                n = re.search(r"(?m)^(?:abbrev |pub |unfoldable )*([\w'-]+) :", b)
                if n:
                    takes[n.group(1)] = f.place[norm(place.group(1))]
    module = f"Rattle.{name}.proofs.{dotted}"
    for b in blocks(text):
        code = "\n".join(l for l in b.split("\n") if not l.startswith("--"))
        notes = "\n".join(l for l in b.split("\n") if l.startswith("--"))
        if code.startswith("use "):
            if notes:
                head.append(notes)
            if ".Statement." not in code and " as tie" not in code:
                uses.append(code)
            continue
        if re.search(r"tie\s*\.\s*close", code):
            continue
        m = re.match(r"abbrev (invariant|decreases)-([\w-]+) : tie\.", code)
        if m:
            body = code.split("\n", 1)[1]
            lhs, rhs = re.split(r" =(?:\s|$)", body, maxsplit=1)
            params = lhs.split()[1:]
            loop = f.loops.get(norm(m.group(2)))
            new = loop[0] if loop else m.group(2)
            subst = {}
            if loop:
                variables, changed = loop[1], loop[2]
                for p, v, ch in zip(params, variables, changed):
                    subst[p] = ("l.initial." if ch else "l.") + v
                for p, v in zip(params[len(variables):], [v for v, ch in zip(variables, changed) if ch]):
                    subst[p] = "l." + v
            subst.pop("_", None)
            rhs = re.sub(r"[^\s(){}.;,@\"«»\[\]|:]+", lambda w: subst.get(w.group(), w.group()), rhs)
            invariants.append((notes + "\n" if notes else "") + f"abbrev pub {m.group(1)}-{new} : goal.{m.group(1)}-{new}\n{m.group(1)}-{new} l ={(' ' + rhs) if not rhs.startswith(chr(10)) else rhs}")
            continue
        m = re.match(r"([^\s:]+) : tie\.Need-([^\s]+)[^\n]*\n", code)
        if m:
            old, need = m.group(1), m.group(2)
            new = f.needed(need)
            rest = code[m.end():]
            d = re.search(r"(?m)^" + re.escape(old) + r"((?: [^\s=]+)*) =\s*", rest)
            if not d:
                answers.append(f"-- TODO {old}\n{code}")
                continue
            body = rest[d.end():]
            if body.strip() in ("search rules",):
                continue
            before = rest[:d.start()]
            if not new:
                answers.append(f"-- TODO no goal `Need-{need}` today\n-- " + (code.replace("\n", "\n-- ")))
                continue
            args = " ".join(a for a in d.group(1).split() if a != "κs")
            lead = "\n" if rest[d.start():d.end()].endswith("\n    ") or rest[d.start():d.end()].rstrip(" ").endswith("\n") else " "
            place = f.at[new]
            def fix(t):
                t = f.term(t)
                known = {"c"}
                while True:
                    more = {v for v, w in re.findall(r"let (\w+) = (\w+) in", t) if w in known} - known
                    if not more:
                        break
                    known |= more
                for n, where in takes.items():
                    t = re.sub(r"(?<![\w'.-])" + re.escape(n) + r" (" + "|".join(known) + r")(?![\w'.])", f"{n} (goal.at.{new} c).{where}", t)
                return t
            answers.append((notes + "\n" if notes else "") + f"pub {new} : goal.{new}\n{before}{new} {args} ={lead}{'    ' if lead == chr(10) else ''}{fix(body)}")
            continue
        places = re.findall(r"tie\.([\w-]+)", code)
        def typed(m):
            new = f.place.get(norm(m.group(1)))
            if new:
                wanted.add(new)
                return new
            return "TODO-" + m.group(1)
        code = re.sub(r"tie\.([\w'-]+)(?: invariant-[\w-]+| decreases-[\w-]+)*", typed, code)
        answers.append((notes + "\n" if notes else "") + f.term(code))
    os.rename(source, source + ".txt")
    if invariants:
        open(os.path.join(base, "Invariants.antt"), "w", encoding="utf-8").write(
            "\n".join(head) + "\n" + "\n".join(uses) + f"\nuse {module}.Given as goal\n\n" + "\n\n".join(invariants) + "\n")
    if answers:
        more = f"use {module}.Goals.{{{', '.join(sorted(wanted))}}}\n" if wanted else ""
        open(os.path.join(base, "Answers.antt"), "w", encoding="utf-8").write(
            "\n".join(head) + "\n" + "\n".join(uses) + f"\nuse {module}.Goals as goal\n{more}\n" + "\n\n".join(answers) + "\n")
    print(f"{folder}: {len(invariants)} invariants and measures, {len(answers)} answers and lemmas")


def main():
    names = json.load(open(sys.argv[1]))
    crate = sys.argv[2]
    folders = sys.argv[3:] or [
        os.path.relpath(os.path.dirname(p), os.path.join(crate, "proofs")) for p in sorted(glob.glob(os.path.join(crate, "proofs/**/Proof.antt"), recursive=True))
    ]
    for folder in folders:
        convert(names, crate, folder)


main()
