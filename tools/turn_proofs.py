#!/usr/bin/env python3
"""Turns a proof that walks the code's steps one by one (Proof.antt) into Invariants.antt and Answers.antt.

usage: tools/turn_proofs.py NAMES CRATE [FUNCTION..]

NAMES is the names.json that `rt names` or `rt check --generated DIR --old-names` writes for the crate, and CRATE its folder. Each
proofs/F/Proof.antt below it that goes by `tie` is replaced; a goal that the old file left to the search gets no answer. A line that
begins 'left:' says what a hand has to look at.
"""

import json
import os
import re
import sys

WORD = r"[^\s(){}.;,@\"«»\[\]|]+"
TOKEN = re.compile(r"--[^\n]*|\"(?:[^\"\\\n]|\\.)*\"|«[^»\n]*»|" + WORD + r"|\s+|.", re.S)
PATH = re.compile(rf"(?<![^\s(){{}}.;,@\"\[\]|])({WORD})((?:\.(?:{WORD}|«[^»]+»))*)")
norm = lambda it: it.replace("-", "_")
trivial = re.compile(r"^\(?\s*(?:λ c(?: κs)?\.\s*)?(?:search (?:rules|needs)|omega arith)\s*\)?$")


class Function:
    cycle = False
    labels = ()

    def __init__(self, crate, name, entry, folder):
        self.crate, self.name, self.folder, self.e = crate, name, folder, entry
        self.steps, self.rows, self.clauses, self.callees = {}, [], {}, {}
        for place, arm, clause in zip(entry["places"], entry["arms"], entry["clauses"]):
            old, new = place[2]
            if old:
                self.steps[norm(old)] = new
                self.callees[norm(old)] = place[3]
                if clause and clause.get("fields"):
                    self.clauses[norm(old)] = clause["fields"]
            if arm:
                for row in arm[2]:
                    self.rows.append((norm(row[1]), tuple(row[2]), arm[0], row[0]))
        self.needs = {norm(a): b for a, b in entry["needs"]}
        self.order = [b for a, b in entry["needs"]]
        self.asked = {norm(a): f for a, f in entry["asked"].items()}
        self.old_of = {b: norm(a) for a, b in entry["needs"]}
        self.left = []

    def say(self, text):
        self.left.append(f"left: {self.folder}: {text}")

    def clause_path(self, fields, rest):
        """`.ensures.1.0` of a contract with the clauses a, b and c is `.ensures.b`."""
        i = 0
        rest = list(rest)
        while rest and rest[0] in ("0", "1"):
            if i == len(fields) - 1:
                break
            step = rest.pop(0)
            if step == "0":
                return [fields[i]] + rest
            i += 1
        return [fields[i]] + rest

    def known(self, head):
        """A step by its old name, or by what the scripts made of that."""
        steps = set(self.steps) | {row[0] for row in self.rows}
        if head not in steps:
            low = head[:-4] if head.endswith("_lem") else head
            for it in steps:
                if it.lower() == low.lower():
                    return it
        return head

    def need(self, old):
        for it in (old, re.sub(r"^(overflow|nonzero)_", "", old), re.sub(r"_lem\b", "", old)):
            if it in self.needs:
                return it
        return old

    def resolve(self, parts):
        """The path behind `c` in today's flat record, of the parts behind the old `c`."""
        parts = [p for p in parts]
        while parts and parts[0] == "before":
            parts = parts[1:]
        if not parts:
            return None
        head, rest = self.known(norm(parts[0])), parts[1:]
        best = None
        for step, path, arm, field in self.rows:
            if step == head and tuple(rest[: len(path)]) == path and (best is None or len(path) > len(best[0])):
                best = (path, arm, field)
        if best and (best[0] or not rest):
            more = rest[len(best[0]) :]
            if best[2] == "ensures" and head in self.clauses and more:
                more = self.clause_path(self.clauses[head], more)
            return [best[1], best[2]] + more
        if best and not best[0]:
            return [best[1], best[2]] + rest
        if head == "pre":
            head, parts = "requires", ["requires"]
        if head == "requires":
            if self.cycle and rest[:1] == ["0"]:
                return ["decreases"] + rest[1:]
            if self.cycle and rest[:1] == ["1"]:
                rest = rest[1:]
            if len(self.labels) > 1 and rest:
                rest = self.clause_path(self.labels, rest)
            return ["requires"] + rest
        if head in ("args", "ranges", "lifetimes"):
            return [parts[0]] + rest
        if head not in self.steps:
            self.say(f"no step {parts[0]}")
            return [parts[0]] + rest
        step = self.steps[head]
        if rest:
            rest = [{"taken": "true", "left": "false", "inv": "invariant"}.get(rest[0], rest[0])] + rest[1:]
        callee = self.callees.get(head)
        if rest and rest[0] in ("last", "kept") and len(rest) > 1 and rest[1] in "01":
            rest = [{"last": "new", "kept": "auto"}[rest[0]]] + rest[1:]
        if rest and rest[0] in ("new", "auto") and len(rest) > 1 and rest[1] in "01" and callee in self.e["params"]:
            i, at = 1, 0
            while i < len(rest) and rest[i] == "1":
                i, at = i + 1, at + 1
            rest = [rest[0], self.e["params"][callee][at]] + rest[i + 1 :]
        if rest and rest[0] == "ensures" and head in self.clauses and len(rest) > 1:
            rest = ["ensures"] + self.clause_path(self.clauses[head], rest[1:])
        return [step] + [norm(p) if i == 1 and rest[0] == "new" else p for i, p in enumerate(rest)]

    # ---- bodies

    def turn(self, body, bound="c"):
        """A body with its paths turned; lets that only name a place are gone."""
        alias = {bound: []}

        def full(m):
            head, tail = m.group(1), m.group(2)
            if head not in alias:
                return None
            parts = re.findall(rf"\.({WORD}|«[^»]+»)", tail)
            return alias[head] + parts

        def put(m):
            parts = full(m)
            if parts is None:
                return m.group()
            to = self.resolve(parts)
            if to is None:
                if m.group(1) != bound or m.group(2):
                    self.say(f"a bare place {m.group()}")
                return "c"
            return "c." + ".".join(to)

        # lets in order of their place in the text
        out, at = [], 0
        let = re.compile(rf"\blet\s+({WORD})\s*=\s*({WORD}(?:\.{WORD})*)\s+in\b\s*")
        text = body
        pos = 0
        result = ""
        while True:
            m = let.search(text, pos)
            if not m:
                result += PATH.sub(put, self.guard(text[pos:]))
                break
            result += PATH.sub(put, self.guard(text[pos : m.start()]))
            head = PATH.match(m.group(2))
            parts = full(head) if head and head.group() == m.group(2) else None
            if parts is None:
                result += self.guard(m.group())
            else:
                alias[m.group(1)] = parts
            pos = m.end()
        return result

    def guard(self, text):
        return text


def split_top(text):
    """The parts of an application: words and bracketed groups at depth 0."""
    parts, depth, cur = [], 0, ""
    for ch in text:
        if ch in "([{":
            depth += 1
        if ch in ")]}":
            depth -= 1
        if ch.isspace() and depth == 0:
            if cur:
                parts.append(cur)
            cur = ""
        else:
            cur += ch
    if cur:
        parts.append(cur)
    return parts


def commas(text):
    parts, depth, cur = [], 0, ""
    for ch in text:
        if ch in "([{":
            depth += 1
        if ch in ")]}":
            depth -= 1
        if ch == "," and depth == 0:
            parts.append(cur)
            cur = ""
        else:
            cur += ch
    if cur.strip():
        parts.append(cur)
    return [p.strip() for p in parts]


def closing(text, start):
    depth = 0
    for i in range(start, len(text)):
        depth += {"(": 1, ")": -1}.get(text[i], 0)
        if depth == 0:
            return i
    return -1


def record(body, fields, say):
    """A tuple at the end of a chain of lets, as a record of the clauses by name."""
    cut = 0
    # the last ` in ` at depth 0
    depth = 0
    for m in re.finditer(r"[()\[\]{}]|\bin\b", body):
        if m.group() in "([{":
            depth += 1
        elif m.group() in ")]}":
            depth -= 1
        elif depth == 0:
            cut = m.end()
    lets, rest = body[:cut], body[cut:].strip()
    if not rest.startswith("(") or closing(rest, 0) != len(rest) - 1:
        say("several clauses, and no tuple")
        return body
    out, todo = [], rest
    for i, f in enumerate(fields):
        if i == len(fields) - 1:
            out.append((f, todo))
            break
        if not (todo.startswith("(") and closing(todo, 0) == len(todo) - 1):
            say("several clauses, and a tuple that is too short")
            return body
        parts = commas(todo[1:-1])
        if len(parts) == len(fields) - i and len(parts) > 2:
            out += list(zip(fields[i:], parts))
            break
        out.append((f, parts[0]))
        todo = parts[1] if len(parts) == 2 else "(" + ", ".join(parts[1:]) + ")"
    inner = ";\n".join(f"      {f} = {t}" for f, t in out)
    return (lets.rstrip() + "\n    " if lets.strip() else "") + "record {\n" + inner + ";\n    }"


def items(text):
    """The file's top-level declarations, with the comments above each: (comment, signature's name, lines)."""
    lines = text.split("\n")
    blocks, cur = [], []
    for line in lines:
        if line.startswith("-- src/"):
            continue
        starts = line and not line[0].isspace() and line[0] not in "})]"
        if starts:
            blocks.append([line])
        elif blocks:
            blocks[-1].append(line)
        else:
            blocks.append([line])
    return ["\n".join(b).rstrip() for b in blocks]


def turn_file(crate, names, crate_dir, folder):
    path = os.path.join(crate_dir, "proofs", folder, "Proof.antt")
    text = open(path, encoding="utf-8").read()
    key = f"Rattle-{crate}-proofs.{folder.replace('/', '.')}.Lts"
    if key not in names:
        print(f"left: {path}: no names")
        return
    fn = Function(crate, folder, names[key], path)
    fn.labels = labels(crate_dir, folder.split("/")[-1])
    uses, heads, inv, ans, keep = [], [], [], [], []
    comment = []
    defs, aside, last_name = {}, [], None
    order = []
    spec = ""
    for block in items(text):
        first = block.split("\n")[0]
        if first.startswith("use "):
            if not re.search(r"\.(Statement|Tie|Lts|Reads|Kinds)\b|\.Statement\.", first.split("{")[0]) and "Statement" not in first:
                uses.append(block)
            continue
        if first.startswith("--"):
            (comment if not order else aside).append(block)
            continue
        if first.startswith("unfolding "):
            if last_name is not None and not re.search(rf"(?m)^(?:abbrev |pub )*{re.escape(last_name)}\s*:\s*tie\.", "\n".join(defs[last_name])):
                defs[last_name].append(block)
            continue
        m = re.match(rf"((?:abbrev |pub |unfoldable )*)({WORD})(.*)$", first, re.S)
        name = m.group(2)
        last_name = name
        if name not in defs:
            defs[name] = aside
            aside = []
            order.append(name)
        defs[name].append(block)
    # which definitions are goals
    emitted = set()
    local = []
    for name in order:
        blocks = defs[name]
        whole = "\n".join(blocks)
        if re.search(r"-spec$|_spec$", name) and "statement" in whole:
            spec = whole
            continue
        while blocks and blocks[0].startswith("--"):
            blocks = blocks[1:]
        sig = blocks[0]
        t = re.match(rf"(?:abbrev |pub )*{re.escape(name)}\s*:\s*tie\.(\S+)", sig)
        if not t:
            local.append(whole)
            continue
        kind = t.group(1)
        if kind.startswith(("invariant-", "decreases-", "InvT-", "MeasureT-")):
            loop = re.sub(r"^(invariant|decreases|InvT|MeasureT)-", "", kind)
            which = "invariant" if kind[0] in "iI" else "decreases"
            row = None
            for (pair, vars_), changed in zip(names[key]["loops"], names[key]["changed"] or [[]] * 9):
                if norm(pair[0]) == norm(loop):
                    row = (pair[1], vars_, changed)
            if not row:
                fn.say(f"no loop {loop}")
                continue
            body = "\n".join(blocks[1:]) if len(blocks) > 1 else sig.split("\n", 1)[1]
            lhs, rhs = body.split("=", 1)
            args = lhs.split()[1:]
            want = [f"l.initial.{v}" if ch else f"l.{v}" for v, ch in zip(row[1], row[2])]
            want += [f"l.{v}" for v, ch in zip(row[1], row[2]) if ch]
            if len(want) != len(args):
                fn.say(f"{kind} has {len(args)} arguments for {want}")
            table = {a: w for a, w in zip(args, want) if a != "_"}
            rhs = PATH.sub(lambda m: table.get(m.group(1), m.group(1)) + m.group(2), rhs)
            inv.append(f"abbrev pub {which}-{row[0]} : goal.{which}-{row[0]}\n{which}-{row[0]} l ={rhs}")
            continue
        old = fn.need(norm(re.sub(r"^Need-", "", kind)))
        if old not in fn.needs:
            fn.say(f"no goal {old} (there are {', '.join(fn.needs)})")
            local.append("-- LEFT " + whole.replace("\n", "\n-- "))
            continue
        new = fn.needs[old]
        lines = "\n".join(blocks[1:]) if len(blocks) > 1 else sig.split("\n", 1)[1]
        unf = ""
        rest = [b for b in blocks[1:]]
        body_block = None
        for b in rest:
            body_block = b
        un = re.findall(r"(?m)^unfolding .*$", whole)
        eq = re.search(rf"(?ms)^{re.escape(name)}((?:\s+\S+)*?)\s*=(?!\S)(.*)$", body_block or whole)
        body = eq.group(2)
        emitted.add(new)
        ans.append((new, un, fn.turn(body.strip("\n")), eq.group(1).split(), old))
    # unfolding lines are blocks of their own: attach them
    unfold = {}
    last = None
    for block in items(text):
        first = block.split("\n")[0]
        if first.startswith("unfolding "):
            unfold.setdefault(last, []).append(first)
        else:
            m = re.match(rf"((?:abbrev |pub )*)({WORD})", first)
            last = m.group(2) if m else last
    # inline answers
    m = re.search(r"tie\.close\s*\(\s*tie\.spec", spec)
    if m:
        inner = spec[m.end() :].strip()
        inner = inner[: inner.rstrip().rfind(")")]
        parts = split_top(inner)
        loops = 2 * len(names[key]["loops"])
        args = parts[loops:]
        if len(args) != len(fn.order):
            nt = [a for a in args if a.startswith("(") and not trivial.match(a)]
            if nt:
                fn.say(f"{len(args)} answers for {len(fn.order)} goals: {' | '.join(nt)[:300]}")
        else:
            for a, new in zip(args, fn.order):
                if a.startswith("(") and not trivial.match(a):
                    lam = re.match(r"\(\s*λ ([^.]*)\.\s*(.*)\)$", a, re.S)
                    if lam:
                        bound = lam.group(1).split()[0]
                        ans.append((new, [], " " + fn.turn(lam.group(2), bound), [], fn.old_of[new]))
                    else:
                        fn.say(f"inline {a[:80]}")
    out = os.path.dirname(path)
    name_of = {}
    for n in order:
        t = re.search(rf"(?m)^(?:abbrev |pub )*{re.escape(n)}\s*:\s*tie\.Need-(\S+)", "\n".join(defs[n]))
        if t:
            name_of[fn.needs.get(fn.need(norm(t.group(1))))] = n
    head = "\n".join(uses)
    if inv:
        write(os.path.join(out, "Invariants.antt"), head + f"\nuse Rattle.{crate}.proofs.{folder.replace('/', '.')}.Given as goal\n\n" + "\n\n".join(inv) + "\n")
    chunks = []
    for new, _un, body, extra, old in ans:
        if trivial.match(body.strip()):
            continue
        fields = fn.asked.get(old)
        if fields and len(fields) > 1:
            body = " " + record(body, fields, fn.say)
        un = "".join(u + "\n" for u in unfold.get(name_of.get(new), []))
        chunks.append(f"pub {new} : goal.{new}\n{un}{new} c ={body}")
    if chunks or local:
        if any("LEFT" in x for x in local):
            fn.say("an answer is a comment")
        write(
            os.path.join(out, "Answers.antt"),
            "".join(c + "\n" for c in comment if "src/lib.rt" not in c)
            + head
            + f"\nuse Rattle.{crate}.proofs.{folder.replace('/', '.')}.Goals as goal\n\n"
            + "\n\n".join(local + chunks)
            + "\n",
        )
    os.remove(path)
    if not os.listdir(out):
        os.rmdir(out)
    for line in fn.left:
        print(line)


def labels(crate_dir, name):
    """The names of a function's `requires`, in order."""
    text = open(os.path.join(crate_dir, "src", "lib.rt"), encoding="utf-8").read()
    m = re.search(rf"\bfn {name}(?:<[^>]*>)?\(", text)
    if not m:
        return []
    head = text[m.start() : text.find("\n{", m.start())]
    return re.findall(r"(?m)^\s*requires (\w+) \{", head)


def parameters(crate_dir, name):
    """The parameters of a function by their order in the source."""
    text = open(os.path.join(crate_dir, "src", "lib.rt"), encoding="utf-8").read()
    m = re.search(rf"\bfn {name}(?:<[^>]*>)?\(", text)
    inner = text[m.end() : closing(text, m.end() - 1)]
    return re.findall(r"(?:^|,)\s*(?:mut )?(\w+)\s*:", inner)


def turn_cycle(crate, names, crate_dir, folder, new_folder):
    path = os.path.join(crate_dir, "proofs", folder, "Proof.antt")
    text = open(path, encoding="utf-8").read()
    entries = {k.split(".Lts-")[1]: e for k, e in names.items() if k.startswith(f"Rattle-{crate}-proofs.{folder}.Lts-")}
    fns = {norm(n): Function(crate, n, e, path) for n, e in entries.items()}
    for n, it in fns.items():
        it.cycle, it.labels = True, labels(crate_dir, n)
    many = len(fns) > 1
    uses, inv, ans, local, unfold, last, spec = [], [], [], [], {}, None, ""
    defs, order = {}, []
    for block in items(text):
        first = block.split("\n")[0]
        if first.startswith("use "):
            if not re.search(r"\.(Statement|Tie|Reads|Kinds)\b|\.Lts|borrow\.Fn|\{statement\}|\{close\}|\.\+", block):
                uses.append(block)
            continue
        if first.startswith("--"):
            continue
        if first.startswith("unfolding "):
            unfold.setdefault(last, []).append(first)
            continue
        last = re.match(rf"((?:abbrev |pub )*)({WORD})", first).group(2)
        if last not in defs:
            defs[last] = []
            order.append(last)
        defs[last].append(block)
    for name in order:
        whole = "\n".join(defs[name])
        if name.startswith("μ-"):
            f = norm(name[2:])
            ps = parameters(crate_dir, f)
            body = whole.split("=", 1)[1]

            def one(m):
                i, at, bits = 0, 0, m.group(1).strip(".").split(".")
                while i < len(bits) and bits[i] == "1":
                    i, at = i + 1, at + 1
                return "l." + ps[at] + "".join("." + b for b in bits[i + 1 :])

            body = re.sub(r"(?<![\w.])a((?:\.\w+)+)", one, body)
            inv.append(f"abbrev pub decreases-{f} : goal.decreases-{f}\ndecreases-{f} l ={body}")
            continue
        if re.search(r"-(at|below|claims)$", name) and "lts" in whole or ": ℕ → In " in whole or "Claims" in whole:
            continue
        if "statement" in whole and re.search(r"[-_]spec$", name):
            spec = whole
            continue
        t = re.search(r"\(t : ℕ\) →\s*(\S+)-lts\.Need-(\S+)", whole)
        if not t:
            local.append(whole)
            continue
        fn = fns[norm(t.group(1))]
        old = fn.need(norm(t.group(2)))
        if old not in fn.needs:
            fn.say(f"no goal {old}")
            continue
        eq = re.search(rf"(?ms)^{re.escape(name)}\s+t\s+(\S+)((?:\s+\S+)?)\s*=(?!\S)(.*)$", defs[name][-1])
        ans.append((fn, old, fn.turn(eq.group(3).strip("\n"), eq.group(1)), unfold.get(name, [])))
    for m in re.finditer(r"(\S+)-lts\.spec", spec):
        fn = fns[norm(m.group(1).lstrip("("))]
        tail = spec[m.end() :]
        depth, end = 0, len(tail)
        for i, ch in enumerate(tail):
            depth += {"(": 1, ")": -1}.get(ch, 0)
            if depth < 0:
                end = i
                break
        parts = split_top(tail[:end])[3:]
        stop = parts.index("λ") if "λ" in parts else len(parts)
        parts = parts[:stop]
        if len(parts) != len(fn.order):
            fn.say(f"{fn.name}: {len(parts)} answers for {len(fn.order)} goals")
            continue
        for a, new in zip(parts, fn.order):
            lam = re.match(r"\(\s*λ ([^.]*)\.\s*(.*)\)$", a, re.S)
            if lam and not trivial.match(a):
                ans.append((fn, fn.old_of[new], " " + fn.turn(lam.group(2), lam.group(1).split()[0]), []))
    out = os.path.join(crate_dir, "proofs", new_folder)
    os.makedirs(out, exist_ok=True)
    head = "\n".join(uses)
    mod = f"Rattle.{crate}.proofs.{new_folder}"
    write(os.path.join(out, "Invariants.antt"), f"{head}\nuse {mod}.Given as goal\n\n" + "\n\n".join(inv) + "\n")
    chunks = []
    for fn, old, body, un in ans:
        if trivial.match(body.strip()):
            continue
        new = (fn.name + "-" if many else "") + fn.needs[old]
        fields = fn.asked.get(old)
        if fields and len(fields) > 1:
            body = " " + record(body, fields, fn.say)
        chunks.append(f"pub {new} : goal.{new}\n" + "".join(u + "\n" for u in un) + f"{new} t c ={body}")
    write(os.path.join(out, "Answers.antt"), f"{head}\nuse {mod}.Goals as goal\n\n" + "\n\n".join(local + chunks) + "\n")
    os.remove(path)
    if not os.listdir(os.path.dirname(path)):
        os.rmdir(os.path.dirname(path))
    for fn in fns.values():
        for line in fn.left:
            print(line)


# A cycle of several functions has a name now, which is its folder's.
CYCLES = {
    "+read_arms_read_binary_read_conditional_read_primary_read_rest_read_unary": "+expression",
    "+read_behind_read_definitions": "+definitions",
    "+put_operand_put_tree": "+tree",
}


def write(path, text):
    with open(path, "w", encoding="utf-8") as f:
        f.write(text)


def main(argv):
    names = json.load(open(argv[0], encoding="utf-8"))
    crate_dir = argv[1].rstrip("/")
    crate = os.path.basename(os.path.abspath(crate_dir))
    only = set(argv[2:])
    base = os.path.join(crate_dir, "proofs")
    for folder, dirs, files in os.walk(base):
        rel = os.path.relpath(folder, base)
        if "Proof.antt" in files and (not only or rel in only):
            if rel.startswith("+"):
                turn_cycle(crate, names, crate_dir, rel, CYCLES.get(rel, rel))
                continue
            turn_file(crate, names, crate_dir, rel)
    return 0


if __name__ == "__main__":
    raise SystemExit(main(sys.argv[1:]))
