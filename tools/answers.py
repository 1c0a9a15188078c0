#!/usr/bin/env python3
"""Turns proofs that walked the code by hand (proofs/F/Proof.antt) into answers (Answers.antt, Invariants.antt).

usage: tools/answers.py CRATE [WORD]     at the top of the repository; WORD: only functions whose path has it

It asks `rt check --generated --old-names` for each goal's old and new name and for the steps before it. What the check finds alone is
left out. A helper that spoke of a place in the code becomes a `let` of the answers that use it. What it can't turn stands in the file as
a comment that begins TODO, and on standard output.
"""
import json
import os
import re
import subprocess
import sys
import tempfile

HEAD = re.compile(r"^((?:(?:abbrev|unfoldable|pub|pattern|record) )*)([^\s(){}.;,@:]+)(?: \([^)]*\))* :(?=\s|$)")
ALONE = {"search rules", "omega arith", "search needs"}
USE = re.compile(r"^use ([^\s{]+?)\.\{([^}]*)\}\s*$|^use (\S+) as (\S+)\s*$|^use (\S+)\s*$", re.M)


def norm(name):
    return name.replace("-", "_")


RAW = re.compile(r"^(?:pub )?(?:module _|record )")


class Block:
    def __init__(self, comment, marks, name, lines):
        self.comment, self.marks, self.name = comment, marks, name
        text = "\n".join(lines).rstrip()
        # a record or a module stays as it is, and is found by the names that it declares
        self.raw = text if RAW.match(text) else None
        self.names = [name]
        if self.raw:
            self.names = re.findall(r"^ +(?:(?:pub|abbrev|unfoldable) )*([^\s(){}.;,@:]+) :(?=\s|$)", text, re.M)
            m = re.match(r"(?:pub )?record ([^\s]+)", text)
            self.names = [m[1]] if m else self.names
            self.sign, self.unfold, self.clauses = "", [], []
            return
        m = HEAD.match(text)
        rest = text[m.end():]
        # signature, unfolding lines, clauses
        own = re.search(rf"^(?:unfolding |{re.escape(name)}(?=[ \n]))", rest, re.M)
        cut = own.start() if own else len(rest)
        self.sign = rest[:cut].strip()
        body = rest[cut:]
        self.unfold = []
        while body.startswith("unfolding "):
            line, _, body = body.partition("\n")
            self.unfold += line.split()[1:]
        parts = re.split(rf"^(?={re.escape(name)}[ \n])", body, flags=re.M)
        self.clauses = [p.rstrip() for p in parts if p.strip()]


def parse(text):
    header, uses, blocks = [], [], []
    comment, current, seen_use = [], None, False
    for line in text.split("\n"):
        if line.startswith("use "):
            uses.append(line)
            seen_use = True
            if comment:
                header += comment
                comment = []
            continue
        if RAW.match(line):
            current = [comment, "", "", [line]]
            comment = []
            blocks.append(current)
            continue
        m = HEAD.match(line)
        if m:
            current = [comment, m[1], m[2], [line]]
            comment = []
            blocks.append(current)
            continue
        if line.startswith("--"):
            if not seen_use and not blocks:
                header.append(line)
            else:
                comment.append(line)
            continue
        if current is not None:
            if comment and line.strip():
                current[3] += comment
                comment = []
            current[3].append(line)
    return header, uses, [Block(*b) for b in blocks]


def params_of(clause, name):
    """Parameters before the first = of a one-clause definition, and the body."""
    head, _, body = clause.partition("=")
    # an = inside a pattern does not occur in these proofs
    return head[len(name):].split(), body.strip("\n")


def strip_before(text):
    return re.sub(r"(?:\.before)+(?![\w-])", "", text)


def indent(text, by):
    return "\n".join(" " * by + l if l.strip() else l for l in text.split("\n"))


class Function:
    def __init__(self, crate, key, row, folder):
        self.crate, self.key, self.row, self.folder = crate, key, row, folder
        self.goals, self.at = {}, {}
        for (old, new), (place, _) in zip(row["needs"], row["asked_at"] if len(row["asked_at"]) == len(row["needs"]) else [(None, None)] * len(row["needs"])):
            self.goals[norm(old)] = new
        for old, new in row["needs"]:
            self.goals.setdefault(norm(new), new)
        self.steps = {}
        for old, above, (a, b), *_ in row["places"]:
            if a:
                self.steps[norm(a)] = b
        # what an arm of a match knows: (old step, old path) and its new path
        self.arms = {}
        for arm in row["arms"]:
            if arm:
                for new, old, path in arm[2]:
                    if path:
                        self.arms[(norm(old), ".".join(path))] = f"{arm[0]}.{new}"
        self.loops = {norm(pair[0]): (pair[1], names) for pair, names in row["loops"]}
        self.changed = dict(zip([norm(p[0]) for p, _ in row["loops"]], row["changed"]))
        self.todo = []

    def new_goal(self, label):
        label = norm(label)
        for head in ("", "overflow_", "nonzero_", "bounds_"):
            if label.startswith(head) and label[len(head):] in self.goals:
                return self.goals[label[len(head):]]
        return None

    def turn(self, text, variables):
        """Paths behind c and its other names: flat, and with the steps' new names."""
        text = re.sub(r"(\.[\w-]+)_lem(?![\w-])", r"\1", strip_before(text))

        def step(m):
            return f"{m[1]}.{self.steps.get(norm(m[2]), m[2])}"

        for v in variables:
            for (old, path), new in sorted(self.arms.items(), key=lambda x: -len(x[0][1])):
                name = "[-_]".join(map(re.escape, re.split("[-_]", old)))
                text = re.sub(rf"(?<![\w.'-])({re.escape(v)})\.{name}\.{re.escape(path)}(?![\w'-])", lambda m: f"{m[1]}.{new}", text)
            text = re.sub(rf"(?<![\w.'-])({re.escape(v)})\.([\w'-]+)", step, text)
        text = re.sub(r"(\.if-[\w'-]+)\.taken\b", r"\1.true", text)
        text = re.sub(r"(\.if-[\w'-]+)\.left\b", r"\1.false", text)
        for v in variables:
            text = re.sub(rf"(?<![\w.'-])({re.escape(v)})\.pre(?![\w'-])", r"\1.requires", text)
        # a test of `!x` says now what x is
        text = re.sub(r"\bnot-(?:true|false) (?:[\w'.-]+|\([^()]*\)) ([\w'-]+(?:\.[\w'-]+)*\.if-not-[\w'-]+\.(?:true|false))", r"\1", text)
        return text

    def aliases(self, text, variables):
        found = list(variables)
        again = True
        while again:
            again = False
            for m in re.finditer(r"let ([\w'-]+) = ([\w'-]+)(?:\.before)* in", text):
                if m[2] in found and m[1] not in found:
                    found.append(m[1])
                    again = True
        return found

    def convert(self):
        path = os.path.join(self.folder, "Proof.antt")
        header, uses, blocks = parse(open(path, encoding="utf-8").read())
        places = {norm(p[0]) for p in self.row["places"]}
        helpers, plain, goals, loops, back = {}, [], [], [], {}
        for b in blocks:
            if b.raw:
                plain.append(b)
            elif re.match(r"tie\.Need-", b.sign):
                goals.append(b)
            elif re.match(r"tie\.[Ii]nvariant", b.sign) or re.match(r"tie\.[Dd]ecreases", b.sign):
                loops.append(b)
            elif "statement M" in b.sign and b.name.endswith(("-spec", "_spec")):
                continue
            elif re.fullmatch(r"tie\.[\w-]+(?: invariant\S*)*(?: decreases\S*)* → tie\.[\w-]+(?: invariant\S*)*(?: decreases\S*)*", b.sign.replace("\n", " ")) or (
                "tie." in b.sign and re.search(r"→ *tie\.[\w-]+[^→]*$", b.sign) and len(b.clauses) == 1
                and re.fullmatch(r"\w+ \w+ = \w+(\.before)*", b.clauses[0].strip())
            ):
                back[b.name] = b
            elif "tie." in b.sign:
                helpers[b.name] = b
            else:
                plain.append(b)
        answers, invariants = [], []
        for b in goals:
            label = re.match(r"tie\.Need-([\w'-]+)", b.sign)[1]
            new = self.new_goal(label)
            made = self.goal(b, label, new, helpers, back)
            if made:
                answers.append(made)
        for b in loops:
            made = self.loop(b)
            if made:
                invariants.append(made)
        self.write(header, uses, plain, answers, invariants)

    def unback(self, text, back):
        for name in back:
            text = re.sub(rf"\(({re.escape(name)}) ([\w'.-]+)\)", r"\2", text)
            text = re.sub(rf"(?<![\w.'-]){re.escape(name)} ([\w'-]+(?:\.before)*)", r"\1", text)
        return text

    def goal(self, b, label, new, helpers, back):
        if len(b.clauses) != 1:
            self.todo.append(f"{b.name}: several clauses")
            return self.comment(b)
        params, body = params_of(b.clauses[0], b.name)
        if re.sub(r"λ \w+\. ", "", body.strip()) in ALONE:
            return None
        if new is None:
            self.todo.append(f"{b.name}: no goal {label} any more")
            return self.comment(b)
        c = params[0]
        more = "".join(" " + p for p in params[1:] if p != "κs")
        body = self.unback(body, back)
        unfold = list(b.unfold)
        body, lets = self.inline(body, [c], c, helpers, back, unfold, set())
        if body is None:
            self.todo.append(f"{b.name}: a helper that does not become a let ({lets})")
            return self.comment(b)
        lines = list(b.comment)
        lines.append(f"pub {new} : goal.{new}")
        if unfold:
            lines.append("unfolding " + " ".join(dict.fromkeys(unfold)))
        if lets:
            lines.append(f"{new} {c}{more} =")
            lines += [indent(l, 4) for l in lets]
            lines.append(indent(body.strip() if not body.startswith("\n") else body.strip("\n").lstrip(), 4) if not body.startswith(" " * 4) else body)
        else:
            lines.append(f"{new} {c}{more} ={body if body.startswith(chr(10)) else ' ' + body.strip() if chr(10) not in body.strip() else chr(10) + indent(body, 0)}")
        if "branch" in "\n".join(lines):
            self.todo.append(f"{new}: cites a branch")
        return "\n".join(lines)

    def inline(self, body, variables, c, helpers, back, unfold, busy):
        lets = []
        variables = self.aliases(body, variables)
        for name, h in helpers.items():
            if name in busy or not re.search(rf"(?<![\w.'-]){re.escape(name)}(?![\w'-])", body):
                continue
            if len(h.clauses) != 1 or re.search(r"^\s+where\b", h.clauses[0], re.M):
                return None, name
            hp, hb = params_of(h.clauses[0], name)
            m = re.match(r"\((\w+) : tie\.[^()]*\)\s*(→)?\s*", h.sign) or re.match(r"tie\.[\w-]+(?: invariant[\w-]*)*(?: decreases[\w-]*)*\s*()→\s*", h.sign)
            if not m or not hp:
                return None, name
            rest = h.sign[m.end():]
            hv = hp[0]
            sv = m[1] if m.re.groups and m[1] else hv
            rest = self.unback(rest, back)
            hb = self.unback(hb, back)
            rest = self.turn(rest, self.aliases(rest, [sv]))
            unfold += h.unfold
            inner, inner_lets = self.inline(hb, [hv], hv, helpers, back, unfold, busy | {name})
            if inner is None:
                return None, inner_lets
            ren = lambda t, v: re.sub(rf"(?<![\w.'-]){re.escape(v)}(?=[.\s)(,]|$)", c, t) if v != c else t
            rest, inner = ren(rest, sv), ren(inner, hv)
            inner_lets = [ren(l, hv) for l in inner_lets]
            for l in inner_lets:
                if l not in lets:
                    lets.append(l)
            value = inner.strip()
            if len(hp) > 1:
                value = "λ " + " ".join(hp[1:]) + ". " + value
            lets.append(f"let {name} : {' '.join(rest.split())} =\n{indent(value, 4)} in")
            names = "|".join(re.escape(v) for v in variables)
            body = re.sub(rf"(?<![\w.'-]){re.escape(name)} (?:{names})(?:\.before)*(?![\w.'-])", name, body)
            body = re.sub(rf"(?<![\w.'-]){re.escape(name)} \((?:{names})(?:\.before)*\)", name, body)
        body = self.turn(body, variables)
        for name in helpers:
            call = re.compile(rf"(?<![\w.'-]){re.escape(name)} (?:{re.escape(c)})(?![\w.'-])")
            body = call.sub(name, body)
            lets = [call.sub(name, l) for l in lets]
        return body, lets

    def loop(self, b):
        kind = "invariant" if "nvariant" in b.sign else "decreases"
        old = norm(re.match(r"tie\.\w+?-([\w'-]+)", b.sign)[1])
        if old not in self.loops or len(b.clauses) != 1:
            self.todo.append(f"{b.name}: no loop {old}")
            return self.comment(b)
        new, names = self.loops[old]
        changed = self.changed[old]
        params, body = params_of(b.clauses[0], b.name)
        moved = [n for n, ch in zip(names, changed) if ch]
        want = [(n, True) for n in names] + [(n, False) for n in moved]
        if len(params) != len(want):
            self.todo.append(f"{b.name}: {len(params)} parameters, {len(want)} expected: {names} {changed}")
            return self.comment(b)
        words = set(re.findall(r"[\w'₀]+", body))
        v = next(x for x in ("l", "r", "at_loop", "now_") if x not in words)
        for p, (n, first) in zip(params, want):
            if p == "_":
                continue
            value = f"{v}.initial.{n}" if first and n in moved else f"{v}.{n}"
            body = re.sub(rf"(?<![\w.'₀-]){re.escape(p)}(?![\w'₀-])", value, body)
        lines = list(b.comment)
        lines.append(f"abbrev pub {kind}-{new} : goal.{kind}-{new}")
        if b.unfold:
            lines.append("unfolding " + " ".join(b.unfold))
        lines.append(f"{kind}-{new} {v} ={body if body.startswith(chr(10)) else ' ' + body.strip()}")
        return "\n".join(lines)

    def comment(self, b):
        text = "\n".join([f"{b.marks}{b.name} : {b.sign}"] + (["unfolding " + " ".join(b.unfold)] if b.unfold else []) + b.clauses)
        return "\n".join("-- TODO " + l for l in text.split("\n"))

    def write(self, header, uses, plain, answers, invariants):
        def text_of(b):
            if b.raw:
                return "\n".join(b.comment + [b.raw])
            return "\n".join(b.comment + [f"{b.marks}{b.name} : {b.sign}"] + (["unfolding " + " ".join(b.unfold)] if b.unfold else []) + b.clauses)

        def needs(name, text):
            return re.search(rf"(?<![\w.'-]){re.escape(name)}(?![\w'-])", text)

        def closure(text):
            chosen, again = [], True
            whole = text
            while again:
                again = False
                for b in plain:
                    if b not in chosen and any(needs(n, whole) for n in b.names):
                        chosen.append(b)
                        whole += "\n" + text_of(b)
                        again = True
            return [b for b in plain if b in chosen]

        base = f"Rattle.{self.crate}.proofs." + ".".join(self.path)
        for file, module, parts, shared in (("Invariants.antt", "Given", invariants, []), ("Answers.antt", "Goals", answers, [])):
            if not parts:
                continue
            with_plain = closure("\n".join(parts))
            body = "\n\n".join([text_of(b) for b in with_plain] + parts)
            lines = []
            for line in uses:
                if ".Statement." in line or line.endswith(" as tie"):
                    continue
                m = re.match(r"use (\S+)\.\{([^}]*)\}", line)
                if not m:
                    lines.append(line)
                    continue
                kept = []
                for item in m[2].split(","):
                    item = item.strip()
                    used = item.split()[-1]
                    parts_ = [p for p in used.split("◌") if p]
                    if used == "[]" or all((p in body) for p in parts_):
                        if re.fullmatch(r"[\w'-]+", used) and not needs(used, body):
                            continue
                        kept.append(item)
                if kept:
                    lines.append(f"use {m[1]}.{{{', '.join(kept)}}}")
            lines.append(f"use {base}.{module} as goal")
            top = [l for l in header if not l.startswith("-- Assumes")]
            open(os.path.join(self.folder, file), "w", encoding="utf-8").write("\n".join(top + lines) + "\n\n" + body.rstrip() + "\n")
        os.remove(os.path.join(self.folder, "Proof.antt"))


def main():
    crate = sys.argv[1]
    word = sys.argv[2] if len(sys.argv) > 2 else ""
    folder = f"crates/{crate}"
    out = tempfile.mkdtemp()
    subprocess.run(["rt", "check", "--generated", os.path.join(out, "n"), "--old-names"], cwd=folder, stdout=subprocess.DEVNULL, stderr=subprocess.DEVNULL)
    rows = json.load(open(os.path.join(out, "n", "names.json"), encoding="utf-8"))
    for key, row in sorted(rows.items()):
        if not key.endswith(".Lts"):
            continue
        path = key[: -len(".Lts")].split(".")[1:]
        where = os.path.join(folder, "proofs", *path)
        if not os.path.isfile(os.path.join(where, "Proof.antt")) or word not in "/".join(path):
            continue
        f = Function(crate, key, row, where)
        f.path = path
        f.convert()
        for t in f.todo:
            print(f"{'/'.join(path)}: {t}")


main()
