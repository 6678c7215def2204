#!/usr/bin/env python3
"""Turns the proofs that walk the code, proofs/F/Proof.antt, into proofs/F/Invariants.antt and proofs/F/Answers.antt, by the names
that `rt check --generated DIR --old-names` lists.

usage: python3 tools/answers.py CRATE NAMES.json [FUNCTION..]      at the top of the repository
"""

import glob
import json
import os
import re
import sys

WORD = r"[A-Za-z_][\w'\-₀-₉]*"


def plain(name):
    """A step's name whatever its spelling: dashes and underscores are one, and `_lem` is what the respelling added."""
    return re.sub(r"_lem$", "", name.strip("«»").replace("-", "_").lower())


def declarations(text):
    """The parts of a proof file: a list of (lines of comment before, text)."""
    parts, comment, current = [], [], []
    for line in text.split("\n"):
        if line.startswith("--"):
            if current:
                parts.append((comment, current))
                comment, current = [], []
            comment.append(line)
        elif line.strip() == "":
            if current:
                parts.append((comment, current))
                comment, current = [], []
        else:
            current.append(line)
    if current:
        parts.append((comment, current))
    return parts


def top_args(text):
    """The arguments of `tie.spec`, by parentheses."""
    out, depth, word = [], 0, ""
    for ch in text:
        if ch in "([{":
            depth += 1
        if ch in ")]}":
            depth -= 1
            if depth < 0:
                break
        if ch.isspace() and depth == 0:
            if word:
                out.append(word)
            word = ""
        else:
            word += ch
    if word:
        out.append(word)
    return out


def tuple_parts(term):
    if not (term.startswith("(") and term.endswith(")")):
        return None
    parts, depth, word = [], 0, ""
    for i, ch in enumerate(term):
        if ch in "([{":
            depth += 1
            if depth == 1:
                continue
        if ch in ")]}":
            depth -= 1
            if depth == 0 and i + 1 < len(term):
                return None
            if depth == 0:
                continue
        if ch == "," and depth == 1:
            parts.append(word)
            word = ""
        else:
            word += ch
    if word.strip():
        parts.append(word)
    return parts if len(parts) > 1 else None


def after_let(term):
    """Where the body of a leading `let .. in` begins."""
    if not re.match(r"let\s", term):
        return None
    depth, nested = 0, 0
    for m in re.finditer(r"[(\[{]|[)\]}]|(?<![\w'\-.])(?:let|in)(?![\w'\-.])", term):
        w = m.group(0)
        if w in "([{":
            depth += 1
        elif w in ")]}":
            depth -= 1
        elif depth == 0 and w == "let":
            nested += 1
        elif depth == 0 and w == "in":
            nested -= 1
            if nested == 0:
                return m.end()
    return None


def head_of(path):
    return path.split(".")[0]


def pairs(terms):
    """A nest of pairs, as the clauses of a call were."""
    return terms[0] if len(terms) == 1 else "(" + terms[0] + ", " + pairs(terms[1:]) + ")"


def nested(fields, stem):
    """The parts of a nest of pairs, as paths behind stem."""
    if len(fields) == 1:
        return [stem]
    return [stem + ".0"] + nested(fields[1:], stem + ".1")


def flat_parts(inner, fields):
    parts = tuple_parts(inner)
    if parts and len(parts) == len(fields):
        return parts
    if parts and len(parts) == 2 and len(fields) > 2:
        rest = flat_parts(parts[1].strip(), fields[1:])
        return rest and [parts[0]] + rest
    return None


class Function:
    def __init__(self, crate, folder, entry, log):
        self.crate, self.folder, self.e, self.log = crate, folder, entry, log
        self.steps, self.fields, self.facts = {}, {}, {}
        self.paths = []
        for place in entry["places"]:
            old, new = place[2]
            if old:
                self.steps.setdefault(plain(old), new)
                for was, now in place[4]:
                    if was != "fact":
                        self.fields[(new, was)] = now
                    else:
                        self.facts.setdefault(new, []).append(now)
        for arm in entry["arms"]:
            if arm:
                name, _, fields = arm
                for new, step, path in fields:
                    self.paths.append((plain(step), path, name + "." + new if new != name + "-own" else name))
        self.loops = entry["loops"]
        self.args = [(a.replace(" ", ""), b.replace(" ", "")) for a, b in entry["args"]]
        self.asked = {plain(k): v for k, v in entry["asked"].items()}
        self.clauses = {}
        for place, clause in zip(entry["places"], entry["clauses"]):
            if place[2][0] and clause and clause.get("fields"):
                self.clauses[place[2][1]] = clause["fields"]
        self.passed = {}
        for place in entry["places"]:
            if place[2][0] and place[3] in entry["params"]:
                self.passed[place[2][1]] = entry["params"][place[3]]
        self.pre = (entry["pre"] or {}).get("fields") if isinstance(entry["pre"], dict) else entry["pre"]

    def fix(self, term):
        """A term of the old form in the new one."""
        while True:
            m = re.search(r"let (" + WORD + r") = (" + WORD + r"(?:\.[\w'\-₀-₉]+)*) in\s*", term)
            if not m:
                break
            name, path = m.group(1), m.group(2)
            rest = re.sub(r"(?<![\w'\-.\"])" + re.escape(name) + r"(?![\w'\-\"])", lambda _: path, term[m.end():])
            term = term[: m.start()] + rest
        term = re.sub(r"(\.before)+(?![\w'\-])", "", term)

        def chain(m):
            head, rest = m.group(1), m.group(2)
            names = rest[1:].split(".")
            step = plain(names[0])
            best = None
            for s, path, new in self.paths:
                if s == step and names[1:1 + len(path)] == path and (best is None or len(path) > len(best[1])):
                    best = (s, path, new)
            if best and (best[1] or len(names) == 1 or step not in self.steps):
                return head + "." + ".".join([best[2]] + names[1 + len(best[1]):])
            if step in self.steps:
                return head + "." + ".".join([self.steps[step]] + names[1:])
            short = re.sub(r"\d+$", "", step)
            if short != step and short in self.steps and step not in ("args",):
                return head + "." + ".".join([self.steps[short]] + names[1:])
            if names[0] in ("well-formed", "type-inv", "element-fits"):
                return head + "." + ".".join([names[0].replace("-", "_")] + names[1:])
            if best:
                return head + "." + ".".join([best[2]] + names[1:])
            return m.group(0)

        def named(m):
            if m.group(1) != "c":
                return m.group(0)
            return re.sub(r"\.(record|ruleset|data|open)(?![\w'\-»])", r".«\1»", named_inner(m))

        def named_inner(m):
            out = chain(m).replace("«", "").replace("»", "")
            for was, now in self.args:
                if out.startswith(head_of(out) + was) and not re.match(r"[\w'\-]", out[len(head_of(out) + was):]):
                    out = head_of(out) + now + out[len(head_of(out) + was):]
            parts = out.split(".")
            if len(parts) > 2:
                parts[2] = self.fields.get((parts[1], parts[2]), parts[2])
                if parts[2] == "fact" and len(self.facts.get(parts[1], [])) == 1:
                    parts[2] = self.facts[parts[1]][0]
            if len(parts) > 3 and parts[2] == "new" and parts[3].isdigit() and self.passed.get(parts[1]):
                left, here = list(self.passed[parts[1]]), 3
                while here < len(parts) and parts[here] == "1" and len(left) > 1:
                    left.pop(0)
                    here += 1
                if here < len(parts) and parts[here] == "0":
                    here += 1
                parts[3:here] = [left[0]]
            for at, word in enumerate(parts):
                fields = None
                if word == "ensures" and at > 0:
                    fields = self.clauses.get(parts[at - 1])
                elif word == "requires" and at == 1:
                    fields = self.pre
                if not fields:
                    continue
                if len(fields) > 1 and at + 1 < len(parts) and parts[at + 1].isdigit():
                    left, here = list(fields), at + 1
                    while len(left) > 1 and here < len(parts) and parts[here] == "1":
                        left.pop(0)
                        here += 1
                    if len(left) > 1 and here < len(parts) and parts[here] == "0":
                        parts[at + 1:here + 1] = [left[0]]
                    elif len(left) == 1:
                        parts[at + 1:here] = [left[0]]
                    else:
                        stem = ".".join(parts[:at + 1])
                        return pairs([stem + "." + x for x in left])
                elif at + 1 < len(parts) and parts[at + 1] in fields:
                    pass
                elif len(fields) == 1:
                    parts.insert(at + 1, fields[0])
                elif at + 1 == len(parts):
                    stem = ".".join(parts)
                    return pairs([stem + "." + x for x in fields])
                break
            return ".".join(parts)

        term = re.sub(r"(?<![\w'\-.])(" + WORD + r")((?:\.[\w'\-₀-₉«»]+)+)", named, term)
        term = re.sub(r"sym \(length-map [^\s()]+ _\)\s*∙ [\w.'\-]*well_formed[.\d]*", "search rules", term)
        raw = r"not-(true|false) _ (" + WORD + r"(?:\.[\w'\-]+)*)\.\1-raw"
        term = re.sub(r"\(" + raw + r"\)", r"\2.\1", term)
        return re.sub(raw, r"\2.\1", term)

    def whole(self, old, new, text):
        """An answer to a goal of named clauses, as a record; text is from `unfolding` on."""
        fields = self.asked.get(plain(old))
        if not fields:
            return text
        m = re.search(r"^" + re.escape(new) + r"[^=\n]*=\s*", text, re.M)
        if not m:
            return text
        head, term = text[: m.end()].rstrip(), text[m.end():].rstrip()
        if len(fields) == 1:
            return head + " record { " + fields[0] + " = " + term + " }"
        lead = ""
        while True:
            cut = after_let(term)
            if cut is None:
                break
            lead += term[:cut] + " "
            term = term[cut:].lstrip()
        inner = term.strip()
        parts = flat_parts(inner, fields)
        if parts and len(parts) == len(fields):
            return head + " " + lead + "record { " + "; ".join(f"{n} = {p.strip()}" for n, p in zip(fields, parts)) + " }"
        if inner == "search rules":
            return head + " " + lead + inner
        words = top_args(inner)
        parts = flat_parts(words[-1], fields) if len(words) == 3 and words[0] == "rw" else None
        if parts and len(parts) == len(fields):
            return head + " " + lead + "record { " + "; ".join(f"{n} = rw {words[1]} ({p.strip()})" for n, p in zip(fields, parts)) + " }"
        return head + " " + lead + "let both = " + inner + " in record { " + "; ".join(f"{n} = {p}" for n, p in zip(fields, nested(fields, "both"))) + " }"


def spellings(old):
    return (old, re.sub(r"^overflow_", "", old), re.sub(r"^slice_bounds_", "part_", old))


def between(text, args, goals):
    """Where the lists differ in length: a goal that only one name between two known ones can be."""
    asked = {n: plain(k) for n, k in re.findall(r"^(" + WORD + r") : tie\.Need-(\S+)", text, re.M)}
    index = {plain(o): i for i, (o, _) in reversed(list(enumerate(goals)))}
    known = {}
    for at, a in enumerate(args):
        for s in spellings(asked.get(a, "")):
            if s in index:
                known[at] = index[s]
                break
    out = {}
    for at, a in enumerate(args):
        if a not in asked or at in known:
            continue
        low = max([known[k] for k in known if k < at], default=-1)
        high = min([known[k] for k in known if k > at], default=len(goals))
        kind = re.sub(r"^overflow_", "", asked[a]).split("_")[0]
        fit = [i for i in range(low + 1, high) if plain(goals[i][0]).split("_")[0] == kind and i not in known.values()]
        if len(fit) == 1:
            out[a] = fit[0]
    return out


def convert(crate, folder, entry):
    path = os.path.join(folder, "Proof.antt")
    text = open(path, encoding="utf-8").read()
    rel = os.path.relpath(folder, os.path.join("crates", crate, "proofs")).replace("/", ".")
    f = Function(crate, folder, entry, [])
    needs = {plain(o): n for o, n in entry["needs"]}
    order = [n for _, n in entry["needs"]]
    uses, answers, invariants, helpers, said = [], [], [], [], []
    spec = None
    local = {}
    by_place = {}
    cut = text.find("tie.spec")
    if cut >= 0:
        loops_named = re.findall(r"^(?:abbrev )?(" + WORD + r") : tie\.(?:invariant|decreases)", text, re.M)
        args = [a for a in top_args(text[cut + 8:]) if a not in loops_named]
        if len(args) == len(order):
            by_place = {a: i for i, a in enumerate(args)}
        else:
            by_place = between(text, args, entry["needs"])
    for comment, lines in declarations(text):
        body = "\n".join(lines)
        if lines[0].startswith("use "):
            uses += [l for l in lines if l.startswith("use ")]
            rest = [l for l in lines if not l.startswith("use ")]
            if comment:
                helpers.insert(0, "\n".join(comment))
            if not rest:
                continue
            lines, comment = rest, []
            body = "\n".join(lines)
        head = re.match(r"(abbrev )?(?:pub )?(" + WORD + r") : (.*)$", lines[0])
        if not head:
            helpers.append("\n".join(comment + lines))
            continue
        name, kind = head.group(2), head.group(3)
        if "tie.close" in body:
            spec = body
            continue
        need = re.match(r"tie\.Need-(\S+)(.*)$", kind)
        loop = re.match(r"tie\.(invariant|decreases)(\S*)(.*)$", kind)
        if need:
            old = plain(need.group(1))
            for turned in spellings(old):
                new = needs.get(turned)
                if new:
                    old = turned
                    break
            if name in by_place:
                old, new = entry["needs"][by_place[name]]
            if new is None:
                said.append(f"need {need.group(1)} is gone")
                continue
            rest = "\n".join(lines[1:])
            rest = re.sub(r"^" + re.escape(name) + r"(?=[\s=])", new, rest, flags=re.M)
            local[name] = new
            rest = re.sub(r"^(" + re.escape(new) + r" \S+) κs", r"\1", rest, flags=re.M)
            answers.append("\n".join(comment + [f"pub {new} : goal.{new}", f.whole(old, new, f.fix(rest))]))
        elif loop:
            invariants.append((comment, loop.group(1), loop.group(2), name, lines[1:]))
        else:
            helpers.append("\n".join(comment + lines))
    def local_names(text):
        for was, now in local.items():
            if was != now:
                text = re.sub(r"(?<=[ (\[])" + re.escape(was) + r"(?= c\b)", now, text)
        return text

    answers = [local_names(a) for a in answers]
    helpers = [local_names(a) for a in helpers]
    # inline answers of the list
    if spec:
        inner = spec[spec.index("tie.spec") + 8:]
        args = top_args(inner)
        if "t" in args[:1]:
            pass
        args = [a for a in args if a not in local or True]
        n_loop = sum(1 for a in args if any(a == inv[3] for inv in invariants))
        rest = [a for a in args if not any(a == inv[3] for inv in invariants)]
        for i, a in enumerate(rest):
            m = re.match(r"\(λ (\S+)( κs)?\. (.*)\)$", a, re.S)
            if m and m.group(3).strip() != "search rules":
                if i < len(order):
                    answers.append(f"pub {order[i]} : goal.{order[i]}\n" + f.whole(f.e["needs"][i][0], order[i], f"{order[i]} {m.group(1)} = {f.fix(m.group(3))}"))
                else:
                    said.append(f"inline {i}: {a[:80]}")
        if len(rest) != len(order):
            said.append(f"{len(rest)} answers for {len(order)} goals")
    return f, uses, helpers, answers, invariants, said, rel


def loops_out(f, uses, invariants, said):
    """The text of Invariants.antt: a loop's old parameters are now fields of `l`."""
    by_old = {plain(loop[0][0]): loop for loop in f.e["loops"]}
    out = []
    for comment, what, suffix, name, lines in invariants:
        loop = by_old.get(plain(suffix.lstrip("-")))
        if loop is None:
            said.append(f"loop {suffix} is gone")
            continue
        new, live = loop[0][1], loop[1]
        text = "\n".join(lines)
        m = re.search(r"^" + re.escape(name) + r"([^=\n]*)=\s*", text, re.M)
        params, term = m.group(1).split(), text[m.end():].rstrip()
        changed = f.e["changed"][f.e["loops"].index(loop)]
        if len(params) != len(live) + sum(changed):
            said.append(f"loop {new}: parameters {params} and variables {live}")
        place = {}
        for p, v, c in zip(params, live, changed):
            place[p] = ("l.initial." if c else "l.") + v
        for p, v in zip(params[len(live):], [v for v, c in zip(live, changed) if c]):
            place[p] = "l." + v

        def turn(m):
            return place.get(m.group(0), m.group(0))

        term = re.sub(r"(?<![\w'\-.₀])" + WORD + r"(?![\w'\-₀])", turn, term)
        goal = f"{what}-{new}"
        lead = text[: m.start()].rstrip()
        out.append("\n".join(comment + [f"abbrev pub {goal} : goal.{goal}"] + ([lead] if lead else []) + [f"{goal} l = {term}"]))
    return "\n\n".join(out) + "\n"


def main():
    crate, names = sys.argv[1], json.load(open(sys.argv[2]))
    only = sys.argv[3:]
    for path in sorted(glob.glob(f"crates/{crate}/proofs/**/Proof.antt", recursive=True)):
        folder = os.path.dirname(path)
        rel = os.path.relpath(folder, f"crates/{crate}/proofs").replace("/", ".")
        if only and rel not in only:
            continue
        entry = names.get(f"Rattle-{crate}-proofs.{rel}.Lts")
        if entry is None:
            print(f"{crate} {rel}: no names")
            continue
        f, uses, helpers, answers, invariants, said, rel = convert(crate, folder, entry)
        body = "\n\n".join(helpers + answers)
        kept = []
        for u in uses:
            if ".Statement." in u or u.endswith(" as tie"):
                continue
            kept.append(u)
        kept.append(f"use Rattle.{crate}.proofs.{rel}.Goals as goal")
        if body.strip():
            with open(os.path.join(folder, "Answers.antt"), "w") as out:
                out.write("\n".join(kept) + "\n\n" + body + "\n")
        if invariants:
            out = loops_out(f, uses, invariants, said)
            if out:
                with open(os.path.join(folder, "Invariants.antt"), "w") as opened:
                    opened.write("\n".join([u for u in kept if not u.endswith("as goal")] + [f"use Rattle.{crate}.proofs.{rel}.Given as goal"]) + "\n\n" + out)
        os.remove(path)
        for s in said:
            print(f"{crate} {rel}: {s}")


if __name__ == "__main__":
    main()
