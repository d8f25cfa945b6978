#!/usr/bin/env python3
"""Turns proofs/F/Proof.antt of the older form (tie.close, c.before..) into proofs/F/Invariants.antt and Answers.antt.

usage: tools/turn_proofs.py NAMES CRATE

NAMES is the names.json that `rt check --generated DIR --old-names` writes in the crate's folder: for each function the
old and the new name of every goal and step. What cannot be placed is left as it stands and told on standard output.
"""
import json
import os
import re
import sys

TOKEN = r"[^\s(){},;.]+"
PATH = re.compile(r"(?<![\w'.-])c((?:\.before(?![\w'-]))*)((?:\.(?:" + TOKEN + r"))*)")


def norm(name):
    name = name.lower().replace("-", "_")
    return name[:-4] if name.endswith("_lem") else name


def split_args(text):
    """The arguments of an application, at depth 0."""
    out, depth, cur = [], 0, ""
    for ch in text:
        if ch in "([{":
            depth += 1
        if ch in ")]}":
            depth -= 1
        if ch.isspace() and depth == 0:
            if cur:
                out.append(cur)
            cur = ""
        else:
            cur += ch
    if cur:
        out.append(cur)
    return out


def declarations(text):
    """The heads (use lines and comments) and the declarations, each with its lines."""
    head, decls, cur, notes = [], [], None, []
    for line in text.splitlines():
        if not line.strip():
            if cur:
                decls.append(cur)
            cur = None
            continue
        if line.startswith("use ") or line.startswith("mod ") or line.startswith("pub use "):
            head.append(line)
            continue
        if line.startswith("--"):
            if cur is None:
                notes.append(line)
                continue
        if cur is None and line.startswith(" ") and decls:
            cur = decls.pop()
            cur["lines"].append("")
        if cur is None:
            cur = {"notes": notes if decls or head else [], "lines": []}
            if notes and not cur["notes"]:
                head = notes + head
            notes = []
        elif not line.startswith((" ", "unfolding", "--")) and re.match(r"(?:pub |abbrev |unfoldable )*" + TOKEN + r" .*?: ", line) and not line.startswith(cur["name"] if "name" in cur else "\0"):
            # a declaration with no blank line above it
            first = re.match(r"(?:pub |abbrev |unfoldable )*(\S+)", cur["lines"][0]).group(1)
            if not line.startswith(first + " "):
                decls.append(cur)
                cur = {"notes": [], "lines": []}
        cur["lines"].append(line)
    if cur:
        decls.append(cur)
    for d in decls:
        d["name"] = re.match(r"(?:pub |abbrev |unfoldable )*(\S+)", d["lines"][0]).group(1)
    return head, notes, decls


class Turner:
    def __init__(self, info, said):
        self.info = info
        self.said = said
        self.cycle = False
        self.parent = {p[0]: p[1] for p in info["places"]}
        self.step = {p[0]: p[2] for p in info["places"]}
        self.needs = info["needs"]
        self.loops = info["loops"]
        self.arms = {p[0]: a for p, a in zip(info["places"], info["arms"]) if a}
        self.at = {}
        for (old, new), (place, _) in zip(info["needs"], info["asked_at"]):
            self.at[new] = place

    def ancestors(self, place):
        out = [place]
        while self.parent.get(place):
            place = self.parent[place]
            out.append(place)
        return out

    def lookup(self, chain, n, old):
        """The new name of the step that stands n places above, or any above with that name."""
        if n < len(chain):
            step = self.step[chain[n]]
            if step and norm(step[0]) == norm(old):
                return step[1]
        for place in chain:
            step = self.step[place]
            if step and norm(step[0]) == norm(old):
                return step[1]
        return None

    def arm(self, chain, old, fields):
        """The path of an arm's fact: match.keys2 or x.given.1 -> in-V.is"""
        for place in chain:
            arm = self.arms.get(place)
            if not arm:
                continue
            for new, step, wanted in arm[2]:
                if norm(step) == norm(old) and wanted and fields[: len(wanted)] == wanted:
                    return [arm[0], new] + fields[len(wanted) :]
        for place in chain:
            arm = self.arms.get(place)
            if not arm:
                continue
            for new, step, wanted in arm[2]:
                if norm(step) == norm(old) and not wanted:
                    return [arm[0], new] + fields
        return None

    def paths(self, body):
        return [(len(m.group(1)) // 7, m.group(2).split(".")[1:]) for m in PATH.finditer(body)]

    def place_of(self, body):
        """The place whose chain fits the paths best."""
        best, score = None, -1
        wanted = [(n, p[0]) for n, p in self.paths(body) if p and p[0] not in ("args", "requires", "ranges")]
        for place in self.parent:
            chain = self.ancestors(place)
            exact = sum(1 for n, s in wanted if n < len(chain) and self.step[chain[n]] and norm(self.step[chain[n]][0]) == norm(s))
            loose = sum(1 for n, s in wanted if self.lookup(chain, n, s))
            root = sum(1 for n, p in self.paths(body) if p and p[0] in ("args", "requires") and n == len(chain) - 1)
            s = exact * 100 + root * 100 + loose
            if s > score:
                best, score = place, s
        return best


def old_needs(info):
    out = {}
    for old, new in info["needs"]:
        out[norm(old)] = new
    return out


def turn(path, info, module, say):
    with open(path, encoding="utf-8") as f:
        text = f.read()
    head, tail_notes, decls = declarations(text)
    said = lambda s: say(f"{path}: {s}")
    t = Turner(info, said)
    needs = old_needs(info)
    folder = os.path.dirname(path)
    spec = [d for d in decls if any("tie.close" in l or "tie.spec" in l for l in d["lines"])]
    goals, others, invs = [], [], []
    by_name = {}
    for d in decls:
        if d in spec:
            continue
        sig = d["lines"][0]
        m = re.search(r": tie\.(?:Need-([^\s]+)|(invariant|decreases|InvT|MeasureT)-([^\s]+))", sig)
        if m and m.group(1):
            d["need"] = m.group(1)
            goals.append(d)
            by_name[d["name"]] = d
        elif m:
            d["inv"] = (m.group(2), m.group(3))
            invs.append(d)
            by_name[d["name"]] = d
        else:
            others.append(d)
    # the positions of tie.spec
    positions = {}
    inline = []
    if spec:
        body = " ".join(l.strip() for l in spec[0]["lines"][1:])
        body = body[body.index("=") + 1 :]
        inner = body[body.index("tie.spec") :]
        if "(tie.spec" in body:
            start = body.index("(tie.spec")
            depth = 0
            for i in range(start, len(body)):
                depth += body[i] == "("
                depth -= body[i] == ")"
                if depth == 0:
                    inner = body[start + 1 : i]
                    break
        args = split_args(inner)[1:]
        k = 2 * len(t.loops)
        rest = args[k:]
        if len(rest) == len(info["needs"]):
            for i, a in enumerate(rest):
                if a in by_name:
                    positions[a] = info["needs"][i][1]
                elif a.startswith("("):
                    inline.append((info["needs"][i][1], a[1:-1]))
        elif rest:
            said(f"{len(rest)} goals there, {len(info['needs'])} here")
            for a in rest:
                if a.startswith("(") and not re.fullmatch(r"\(λ c( κs)?\. (search rules|tt)\)", a):
                    said(f"left out: {a}")
    answers = []
    used = set()
    for d in goals:
        new = positions.get(d["name"])
        if new is None:
            key = norm(d["need"])
            new = needs.get(key) or needs.get(re.sub(r"^overflow_", "", key))
        if new is None:
            said(f"no goal for {d['need']}")
            new = "?" + d["need"]
        lines = [f"pub {new} : goal.{new}"]
        for l in d["lines"][1:]:
            if l.startswith("unfolding"):
                lines.append(l)
            elif l.startswith(d["name"] + " "):
                m = re.match(re.escape(d["name"]) + r"\s+c(?:\s+κs)?\s*=\s*(.*)$", l)
                if not m:
                    said(f"clause of {d['name']}: {l[:80]}")
                    lines.append(l)
                else:
                    lines.append(f"{new} c = \0{m.group(1)}")
            else:
                lines.append("\0" + l)
        # rewrite the body as one text, so that its paths are placed together
        whole = "\n".join(lines)
        bodies = "".join(re.findall("\0(.*)", whole))
        place = t.at.get(new) or t.place_of(bodies)
        out = turned_lines(t, lines, place, new)
        if new in used:
            said(f"{new} is answered twice")
        used.add(new)
        only = re.sub(r"^.*? = ", "", out[-1])
        trivial = len(out) == 2 and only.strip() in ("search rules", "tt")
        if not trivial:
            answers.append(d["notes"] + out)
    for new, lam in inline:
        m = re.match(r"λ c(?: κs)?\. (.*)$", lam)
        if not m:
            said(f"inline {new}: {lam[:60]}")
            continue
        b = m.group(1)
        if b.strip() in ("search rules", "tt") or new in used:
            continue
        used.add(new)
        answers.append([f"pub {new} : goal.{new}", f"{new} c = {rewrite(t, b, t.at.get(new) or t.place_of(b), new)}"])
    # invariants
    inv_out = []
    for d in invs:
        kind, loop = d["inv"]
        kind = {"InvT": "invariant", "MeasureT": "decreases"}.get(kind, kind)
        found = None
        for k, ((old, new), variables) in enumerate(t.loops):
            if norm(old) == norm(loop):
                found = (new, variables, info["changed"][k])
        if not found:
            said(f"no loop {loop}")
            continue
        new, variables, changed = found
        lines = [l for l in d["lines"][1:]]
        clause = next(i for i, l in enumerate(lines) if not l.startswith("unfolding"))
        m = re.match(r"(\S+)((?:\s+[^\s=]+)*)\s+=\s*(.*)$", lines[clause])
        if not m:
            said(f"invariant {loop}: {lines[clause][:80]}")
            continue
        params = m.group(2).split()
        values = []
        for v, ch in zip(variables, changed):
            values.append(f"l.initial.{v}" if ch else f"l.{v}")
        for v, ch in zip(variables, changed):
            if ch:
                values.append(f"l.{v}")
        if len(params) != len(values):
            said(f"invariant {loop}: {len(params)} parameters, {len(values)} here: {params} {values}")
        sub = dict(zip(params, values))
        text = "\n".join([m.group(3)] + lines[clause + 1 :])
        text = re.sub(r"(?<![^\s(),;{}])(" + "|".join(re.escape(p) for p in sorted(params, key=len, reverse=True)) + r")(?![^\s(),;{}.])", lambda mm: sub.get(mm.group(1), mm.group(1)), text) if params else text
        inv_out.append([f"abbrev pub {kind}-{new} : goal.{kind}-{new}"] + [l for l in lines[:clause]] + [f"{kind}-{new} l = {text}"])
    uses = [l for l in head if not re.search(r"\.(Statement|Tie)\b", l) and l.startswith(("use", "pub use"))]
    notes = [l for l in head if l.startswith("--")]

    other_blocks = [d["notes"] + d["lines"] for d in others]
    for d in others:
        for l in d["lines"]:
            if "tie." in l:
                said(f"a lemma of its own names tie: {d['name']}")
    if inv_out:
        # what the invariants cite of the file's own goes there too
        need = [b for d, b in zip(others, other_blocks) if any(re.search(r"(?<![^\s(),;{}])" + re.escape(d["name"]) + r"(?![^\s(),;{}.])", "\n".join(x)) for x in inv_out)]
        body = cited(uses, inv_out + need) + [f"use {module}.Given as goal"]
        if need:
            said("an invariant cites a definition of the file: " + ", ".join(b[0] for b in need))
        with open(os.path.join(folder, "Invariants.antt"), "w", encoding="utf-8") as f:
            f.write("\n".join(notes + body) + "\n" + "".join("\n" + "\n".join(b) + "\n" for b in need + inv_out))
    if answers or other_blocks:
        body = cited(uses, other_blocks + answers) + [f"use {module}.Goals as goal"]
        with open(os.path.join(folder, "Answers.antt"), "w", encoding="utf-8") as f:
            f.write("\n".join(([] if inv_out else notes) + body) + "\n" + "".join("\n" + "\n".join(b) + "\n" for b in other_blocks + answers))
    os.remove(path)


def turned_lines(t, lines, place, where):
    out, body = [], None
    for l in lines:
        if "\0" in l:
            a, b = l.split("\0", 1)
            if body is None:
                out.append(a)
                body = [b]
            else:
                body.append(b)
        else:
            out.append(l)
    text = rewrite(t, opened("\n".join(body)), place, where)
    out[-1] += text
    return "\n".join(out).split("\n")


def opened(text):
    """let l = c.before.before in .. l.x .. -> .. c.before.before.x .."""
    while True:
        m = re.search(r"let (\S+) = (c(?:\.before)+) in\s*", text)
        if not m:
            return text
        text = text[: m.start()] + text[m.end() :]
        text = re.sub(r"(?<![\w'.-])" + re.escape(m.group(1)) + r"\.", m.group(2) + ".", text)


def rewrite(t, text, place, where):
    chain = t.ancestors(place) if place else []

    def one(m):
        n = len(m.group(1)) // 7
        steps = m.group(2).split(".")[1:]
        if not steps:
            return m.group(0)
        if steps[0] == "requires" and t.cycle:
            # the measure, and what the function itself requires
            if steps[1:2] == ["0"]:
                return "c." + ".".join(["decreases"] + steps[2:])
            if steps[1:2] == ["1"]:
                return "c." + ".".join(["requires"] + steps[2:])
            t.said(f"{where}: {m.group(0)}")
        if steps[0] in ("args", "requires", "ranges"):
            return "c." + ".".join(steps)
        arm = t.arm(chain, steps[0], steps[1:])
        if arm:
            return "c." + ".".join(arm)
        new = t.lookup(chain, n, steps[0])
        if new is None:
            t.said(f"{where}: no step {steps[0]} ({m.group(0)})")
            new = steps[0]
        return "c." + ".".join([new] + steps[1:])

    return PATH.sub(one, text)


def cited(uses, blocks):
    """The lines of use that the blocks need."""
    body = "\n".join("\n".join(b) for b in blocks)
    words = set(re.findall(r"[^\s(){},;.]+", body)) | set(re.findall(r"[^\s(){},;]+", body))
    out = []
    for l in uses:
        m = re.match(r"use (\S+?)\.\{(.*)\}$", l)
        if not m:
            m2 = re.match(r"use (\S+)(?: as (\S+))?$", l)
            name = (m2.group(2) or m2.group(1).split(".")[-1]) if m2 else ""
            if name in words:
                out.append(l)
            continue
        kept = []
        for it in m.group(2).split(", "):
            name = it.split(" as ")[-1]
            if name in words or ("◌" in name and all(o in words for o in name.split("◌") if o)):
                kept.append(it)
        if kept:
            out.append(f"use {m.group(1)}.{{{', '.join(kept)}}}")
    return out


def turn_cycle(folder, names, crate, module, say):
    """A cycle's folder: Proof.antt, and maybe Proof/*.antt, a file a member."""
    files = [os.path.join(folder, "Proof.antt")]
    inner = os.path.join(folder, "Proof")
    if os.path.isdir(inner):
        files += sorted(os.path.join(inner, f) for f in os.listdir(inner))
    answers, invs, uses, notes, measures = [], [], [], [], {}
    for path in files:
        with open(path, encoding="utf-8") as f:
            text = f.read()
        text = "\n".join(l[2:] if l.startswith("  ") and not l.startswith("    ") or l.startswith("      ") else (l[2:] if l.startswith("    ") else l) for l in text.splitlines() if not l.startswith("module _ (t"))
        head, tail, decls = declarations(text)
        said = lambda s: say(f"{path}: {s}")
        lts = {}
        for l in head:
            m = re.match(r"use \S+\.Lts-(\S+) as (\S+)$", l)
            if m:
                lts[m.group(2)] = m.group(1)
        uses += [l for l in head if l.startswith("use ") and l not in uses and not re.search(r"\.(Reads|Kinds|Tie|Statement|Proof)\b|borrow\.Fn\.|\.Lts-|\.\{statement\}|\.Tie\.", l)]
        notes += [l for l in head if l.startswith("--")]
        # measures
        for d in decls:
            m = re.match(r"(?:abbrev |pub )*μ-(\S+) : Measures", d["lines"][0])
            if m:
                measures[norm(m.group(1))] = re.sub(r"^.*? = ", "", d["lines"][1])
        for alias, fn in lts.items():
            key = f"Rattle-{crate}-proofs.{module}.Lts-{fn}"
            if key not in names:
                said(f"no names {key}")
                continue
            info = names[key]
            t = Turner(info, said)
            t.cycle = True
            needs = old_needs(info)
            by_name, goals, used = {}, [], set()
            spec = None
            for d in decls:
                sig = d["lines"][0]
                m = re.search(r": " + re.escape(alias) + r"\.(?:Need-([^\s]+)|(invariant|decreases)-([^\s]+))", sig)
                if m and m.group(1):
                    d["need"] = m.group(1)
                    goals.append(d)
                    by_name[d["name"]] = d
                elif m:
                    d["inv"] = (m.group(2), m.group(3), fn, info, t)
                    invs.append(d)
                elif f"{alias}.Closed" in sig:
                    spec = d
            positions, inline = {}, []
            body = " ".join(l.strip() for l in spec["lines"][1:])
            body = body[body.index(f"{alias}.spec") :]
            args = split_args(body)[1:]
            rest = args[3 + 2 * len(t.loops) :]
            if len(rest) == len(info["needs"]):
                for i, a in enumerate(rest):
                    if a in by_name:
                        positions[a] = info["needs"][i][1]
                    elif a.startswith("("):
                        inline.append((info["needs"][i][1], a[1:-1]))
            else:
                said(f"{fn}: {len(rest)} goals there, {len(info['needs'])} here")
                for a in rest:
                    if a.startswith("(") and not re.fullmatch(r"\(λ c( κs)?\. (search rules|tt)\)", a):
                        said(f"left out: {a}")
            stem = info.get("stem") or ""
            for d in goals:
                new = positions.get(d["name"])
                if new is None:
                    key2 = norm(d["need"])
                    new = needs.get(key2) or needs.get(re.sub(r"^overflow_", "", key2))
                if new is None:
                    said(f"{fn}: no goal for {d['need']}")
                    new = "?" + d["need"]
                lines = []
                for l in d["lines"][1:]:
                    if l.startswith("unfolding"):
                        lines.append(l)
                        continue
                    m = re.match(re.escape(d["name"]) + r"\s+c(?:\s+κs)?\s*=\s*(.*)$", l)
                    lines.append(f"{new} t c = \0{m.group(1)}" if m else "\0" + l)
                place = t.at.get(new)
                out = turned_lines(t, lines, place, f"{fn} {new}")
                used.add(new)
                only = re.sub(r"^.*? = ", "", out[-1])
                if not (len(out) == 1 and only.strip() in ("search rules", "tt")):
                    answers.append((fn, [f"pub {new} : goal.{new}"] + out))
            for new, lam in inline:
                m = re.match(r"λ c(?: κs)?\. (.*)$", lam)
                b = m.group(1)
                if b.strip() in ("search rules", "tt") or new in used:
                    continue
                answers.append((fn, [f"pub {new} : goal.{new}", f"{new} t c = {rewrite(t, b, t.at.get(new), new)}"]))
    # where a cycle has several members, a goal has its member's name before it
    if len(measures) > 1:
        for fn, b in answers:
            name = re.match(r"pub (\S+) :", b[0]).group(1)
            b[0] = f"pub {fn}-{name} : goal.{fn}-{name}"
            for k in range(1, len(b)):
                if b[k].startswith(name + " "):
                    b[k] = f"{fn}-" + b[k]
                    break
    return answers, invs, uses, notes, measures


def write_cycle(folder, names, crate, module, say):
    answers, invs, uses, notes, measures = turn_cycle(folder, names, crate, module, say)
    blocks = []
    params = {}
    for key, info in names.items():
        if isinstance(info, dict) and key.startswith(f"Rattle-{crate}-proofs.{module}.Lts-"):
            for fn, ps in info["params"].items():
                params[norm(fn.split("::")[-1])] = ps
    for name, body in measures.items():

        def argument(m, name=name):
            k = m.group(1).count(".1")
            return "l." + params[name][k]

        body = re.sub(r"(?<![\w'.-])a((?:\.1)*)\.0(?![\w'-])", argument, body)
        blocks.append([f"abbrev pub decreases-{name} : goal.decreases-{name}", f"decreases-{name} l = {body}"])
    for d in invs:
        kind, loop, fn, info, t = d["inv"]
        for k, ((old, new), variables) in enumerate(t.loops):
            if norm(old) == norm(loop):
                break
        else:
            say(f"{fn}: no loop {loop}")
            continue
        changed = info["changed"][k]
        lines = d["lines"][1:]
        clause = next(i for i, l in enumerate(lines) if not l.startswith("unfolding"))
        m = re.match(r"(\S+)((?:\s+[^\s=]+)*)\s+=\s*(.*)$", lines[clause])
        params = m.group(2).split()
        values = [f"l.initial.{v}" if ch else f"l.{v}" for v, ch in zip(variables, changed)] + [f"l.{v}" for v, ch in zip(variables, changed) if ch]
        if len(params) != len(values):
            say(f"{fn} invariant {loop}: {len(params)} parameters, {len(values)} here: {params} {values}")
        sub = dict(zip(params, values))
        text = "\n".join([m.group(3)] + lines[clause + 1 :])
        text = re.sub(r"(?<![^\s(),;{}])(" + "|".join(re.escape(p) for p in sorted(params, key=len, reverse=True)) + r")(?![^\s(),;{}.])", lambda mm: sub.get(mm.group(1), mm.group(1)), text)
        name = f"{kind}-{new}" if len(measures) == 1 else f"{kind}-{fn}-{new}"
        blocks.append([f"abbrev pub {name} : goal.{name}"] + lines[:clause] + [f"{name} l = {text}"])
    with open(os.path.join(folder, "Invariants.antt"), "w", encoding="utf-8") as f:
        f.write("\n".join([n for n in notes if "answers of" not in n] + cited(uses, blocks) + [f"use Rattle.{crate}.proofs.{module}.Given as goal"]) + "\n" + "".join("\n" + "\n".join(b) + "\n" for b in blocks))
    body = cited(uses, [b for _, b in answers])
    text, last = "", None
    for fn, b in answers:
        if fn != last and len({f for f, _ in answers}) > 1:
            text += f"\n-- ---- {fn}\n"
        last = fn
        text += "\n" + "\n".join(b) + "\n"
    with open(os.path.join(folder, "Answers.antt"), "w", encoding="utf-8") as f:
        f.write("\n".join(body + [f"use Rattle.{crate}.proofs.{module}.Goals as goal"]) + "\n" + text)
    os.remove(os.path.join(folder, "Proof.antt"))
    inner = os.path.join(folder, "Proof")
    if os.path.isdir(inner):
        for f in os.listdir(inner):
            os.remove(os.path.join(inner, f))
        os.rmdir(inner)


def main():
    with open(sys.argv[1], encoding="utf-8") as f:
        names = json.load(f)
    crate = sys.argv[2]
    root = f"crates/{crate}/proofs"
    for folder, dirs, files in os.walk(root):
        dirs.sort()
        if "Proof.antt" not in files:
            continue
        rel = os.path.relpath(folder, root).replace("/", ".")
        if os.path.basename(folder).startswith("+"):
            write_cycle(folder, names, crate, rel, print)
            continue
        key = f"Rattle-{crate}-proofs.{rel}.Lts"
        if key not in names:
            print(f"{folder}: no names ({key})")
            continue
        turn(os.path.join(folder, "Proof.antt"), names[key], f"Rattle.{crate}.proofs.{rel}", print)


if __name__ == "__main__":
    main()
