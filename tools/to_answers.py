#!/usr/bin/env python3
"""Turns a function's Proof.antt of the older form into Invariants.antt and Answers.antt.

usage: python3 tools/to_answers.py NAMES CRATE [FUNCTION ..]     at the top of the repository

NAMES is the folder that `rt names` wrote. An answer `search rules` is left out, since the check finds it. What could not
be turned stays as it was and is named on standard output. Proof.antt is moved to /tmp/old-proofs/.
"""

import glob
import json
import os
import re
import shutil
import sys

SEP = r"\s(){}\[\].,;:\"`|@\\="
ATOM = re.compile(rf"[^{SEP}]+(?:\.[^{SEP}]+)*")
USE = re.compile(r"^use [^\n]*$", re.M)


def norm(name):
    """A name as it was, however a script spelled it since."""
    name = re.sub(r"_lem(?=$|[\d])", "", name)
    return name.replace("_", "-").replace("IsWide", "wide").lower() if not re.match(r"[A-Z][a-z]*-[a-z]|(Start|In|At|After|Then|Else)", name) else re.sub(r"_lem(?=$|[\d])", "", name).replace("_", "-")


def blocks(text):
    """The declarations of a file, each with its comment above it: paragraphs, where an indented one belongs to the one above."""
    out = []
    for part in re.split(r"\n\s*\n", text.strip("\n")):
        if out and (part.startswith(" ") or part.startswith("\t")):
            out[-1] += "\n\n" + part
        else:
            out.append(part)
    return out


def contracts(crate, cache={}):
    """For each function of a crate the names of its requires and of its ensures, None where a lone clause has none."""
    if crate not in cache:
        table = {}
        for f in glob.glob(f"crates/{crate}/src/**/*.rt", recursive=True):
            text = open(f, encoding="utf-8").read()
            for m in re.finditer(r"\bfn (\w+)", text):
                end = text.find("\n{", m.end())
                stop = text.find("\nfn ", m.end())
                head = text[m.end():end if end > 0 else len(text)]
                table[m.group(1)] = (re.findall(r"^\s*requires\*?(?: (\w+))? \{", head, re.M), re.findall(r"^\s*ensures\*?(?: (\w+))? \{", head, re.M))
        cache[crate] = table
    return cache[crate]


def params(crate, name):
    """The names of a function's parameters."""
    for f in glob.glob(f"crates/{crate}/src/**/*.rt", recursive=True):
        m = re.search(rf"\bfn {re.escape(name)}(?:<[^>]*>)?\(([^)]*)\)", open(f, encoding="utf-8").read())
        if m:
            return re.findall(r"(\w+)\s*:(?!:)", m.group(1))
    return []


def clause(names, segs):
    """Turns a path into a product of clauses into the clause's name and the rest."""
    names = [n or None for n in names]
    if len(names) <= 1 or not names[0]:
        return segs
    for k in range(len(names)):
        last = k == len(names) - 1
        want = ["1"] * k + ([] if last else ["0"])
        if segs[:len(want)] == want:
            return [names[k]] + segs[len(want):]
    return segs


def whole(path, names, segs):
    """Several clauses at once, as the nested pairs that they were: for a path that ends before it has come to one clause."""
    names = [n or None for n in names]
    if len(names) <= 1 or not names[0] or any(s != "1" for s in segs) or len(segs) >= len(names) - 1:
        return None
    parts = [f"{path}.{n}" for n in names[len(segs):]]
    text = parts[-1]
    for part in reversed(parts[:-1]):
        text = f"({part}, {text})"
    return [text]


class Function:
    def __init__(self, crate, name, info):
        self.crate, self.name, self.info = crate, name, info
        self.parent, self.step, self.call, self.known = {}, {}, {}, {}
        for p in info["places"]:
            key = norm(p[0])
            self.parent[key] = norm(p[1]) if p[1] else None
            self.step[key] = (norm(p[2][0]), p[2][1])
            self.call[key] = p[3]
        self.goals = [(norm(o), n) for o, n in info["needs"]]
        self.at = [norm(o) for o, n in info["asked_at"]]
        self.macros, self.alias, self.trouble = {}, {}, []

    def place(self, text):
        """The place that a type names, or None."""
        text = text.strip()
        while text.startswith("(") and text.endswith(")"):
            text = text[1:-1].strip()
        m = re.match(r"tie\.([^\s()]+)", text)
        if m and norm(m.group(1)) in self.parent:
            return norm(m.group(1))
        return self.alias.get(text.split()[0] if text else "")

    def own(self):
        return contracts(self.crate).get(self.name.split(".")[-1], ([], []))

    def walk(self, place, segs):
        """The place or the path that segs lead to from place: by the steps back, else by the nearest step of that name."""
        got = self.walk_back(place, segs)
        rest = list(segs)
        while got is None and rest and rest[0] == "before":
            rest.pop(0)
        if got is None and rest:
            if rest[0] in ("args", "pre", "requires", "ranges", "utf8", "fits"):
                return self.walk_back("Start", rest)
            at = place
            while at is not None:
                got = self.walk_back(at, rest)
                if got is not None:
                    return got
                at = self.parent.get(at)
        return got

    def walk_back(self, place, segs):
        """The place or the path that segs lead to from place: ('place', p) or ('text', path)."""
        segs = list(segs)
        while segs:
            s = segs[0]
            if s == "before":
                if self.parent.get(place) is None:
                    return None
                place = self.parent[place]
                segs.pop(0)
                continue
            old, new = self.step[place]
            if place == "Start" and s in ("args", "pre", "requires", "ranges", "utf8", "fits"):
                rest = segs[1:]
                s = "ranges" if s == "fits" else s
                if s in ("pre", "requires"):
                    return "text", whole("c.requires", self.own()[0], rest) or ["c", "requires"] + clause(self.own()[0], rest)
                m = re.fullmatch(r"t(\d+)", rest[0]) if rest else None
                names = params(self.crate, self.name.split(".")[-1])
                if m and rest[0] not in names and int(m.group(1)) <= len(names):
                    rest = [names[int(m.group(1)) - 1]] + rest[1:]
                return "text", ["c", s] + rest
            if norm(s) == old or norm(s).lower() == old.lower():
                rest = segs[1:]
                if rest:
                    if rest[0] == "inv":
                        rest[0] = "invariant"
                    elif rest[0] == "left" and (old.startswith("if") or old.endswith("test")):
                        rest[0] = "false"
                    elif rest[0] == "taken":
                        rest[0] = "true" if place.startswith("In-") or place.startswith("Then") else "false"
                    elif rest[0] == "ensures" and self.call[place]:
                        c, f = self.call[place].split("::")[0], self.call[place].split("::")[-1]
                        names = contracts(c).get(f, ([], []))[1]
                        all_ = whole(f"c.{new}.ensures", names, rest[1:])
                        if all_:
                            return "text", all_
                        rest = ["ensures"] + clause(names, rest[1:])
                    elif re.fullmatch(r"keys\d+", rest[0]):
                        rest[0] = "is"
                    elif rest[0] == "rest" and new.startswith("in_default"):
                        return "text", ["c", new + "-own"] + rest
                    elif rest[0] in ("auto", "kept") and self.call[place] and self.call[place] in self.info["params"]:
                        names = self.info["params"][self.call[place]]
                        k, t = 0, rest[1:]
                        while t and t[0] == "1":
                            k, t = k + 1, t[1:]
                        if t and t[0] == "0":
                            t = t[1:]
                        if k < len(names):
                            rest = ["auto", names[k]] + t
                return "text", ["c", new] + rest
            return None
        return "place", place

    def turn(self, text, env):
        """Turns a term; env says of a name its place, or the path that stands for it."""
        out, i = [], 0
        env = dict(env)
        while i < len(text):
            m = re.compile(r"let\s+([^\s:=]+)\s*(?::\s*((?:[^=])*?))?\s*=\s*").match(text, i) if re.match(r"let\s", text[i:i + 4]) and (i == 0 or not re.match(rf"[^{SEP}]", text[i - 1])) else None
            if m:
                end = self.let_end(text, m.end())
                if end is not None:
                    name, kind, value = m.group(1), m.group(2), text[m.end():end].rstrip()
                    p = self.place(kind) if kind else self.place_of(value, env)
                    i = end + 2
                    while i < len(text) and text[i] in " \n":
                        i += 1
                    if p:
                        env[name] = p
                        continue
                    if kind is None and re.fullmatch(ATOM, value.strip()) and self.path_of(value.strip(), env):
                        env[name] = ("path", self.path_of(value.strip(), env))
                        continue
                    env.pop(name, None)
                    shown = self.turn(value, env)
                    call = re.match(r"\(?([^\s()]+)\s", value)
                    if kind is None and call and self.macros_type.get(call.group(1)) and call.group(1) in self.macros and len(self.macros_param[call.group(1)]) == 1:
                        who, kind_ = self.macros_type[call.group(1)]
                        out.append("let " + name + " : " + self.turn(kind_, {who: self.macros[call.group(1)][1]}) + " = " + shown + " in ")
                        continue
                    out.append("let " + name + (" : " + self.turn(kind, env) if kind else "") + " = " + shown + " in ")
                    continue
            m = re.compile(r"\(([^\s()]+)\s+([^\s()]+|\([^()]*\))\)((?:\.[^\s(){}\[\].,;:]+)*)").match(text, i)
            if m and m.group(1) in self.macros and self.macros[m.group(1)][0] == "place":
                p = self.macros[m.group(1)][1]
                segs = [s for s in m.group(3).split(".") if s]
                got = self.walk(p, segs)
                if got and got[0] == "text":
                    out.append(".".join(got[1]))
                    i = m.end()
                    continue
                if got and got[0] == "place":
                    out.append("c@" + got[1])
                    i = m.end()
                    continue
            m = ATOM.match(text, i)
            if m:
                word = m.group(0)
                root, segs = word.split(".")[0], word.split(".")[1:]
                if root in self.macros and not segs and self.macros[root][0] == "value":
                    one = re.compile(r"\s+([^\s(),;\[\]]+|\((?:[^()]|\((?:[^()]|\([^()]*\))*\))*\)(?:\.[^\s(){}\[\].,;:]+)*)")
                    arg = one.match(text, m.end())
                    if arg and (arg.group(1).startswith("(") or self.place_of(arg.group(1), env)):
                        _, place, body = self.macros[root]
                        more = {}
                        for name in self.macros_param[root][1:]:
                            next_ = one.match(text, arg.end())
                            if not next_:
                                self.trouble.append("arguments of " + root)
                                break
                            arg = next_
                            more[name] = self.turn(arg.group(1), env)
                        shown = self.turn(substitute(body, more) if more else body, {self.macros_param[root][0]: place})
                        typed = self.typed(root, more)
                        if typed and re.match(r"\(?(rw|simp|search|omega|let|\()(?![\w-])", shown):
                            shown = "let h : " + typed + " = " + shown + " in h"
                        bare = "".join(out)[-1:] == "(" and text[arg.end():arg.end() + 1] == ")"
                        out.append(shown if bare or re.fullmatch(ATOM, shown) else "(" + shown + ")")
                        i = arg.end()
                        continue
                if root in env:
                    out.append(self.resolve(root, segs, env, word))
                    i = m.end()
                    continue
                out.append(self.answers.get(word, word) if not segs else word)
                i = m.end()
                continue
            out.append(text[i])
            i += 1
        return "".join(out)

    def typed(self, root, more):
        """The type of a helper's value, at the places and arguments that it is given."""
        if not self.macros_type.get(root):
            return None
        who, kind = self.macros_type[root]
        parts, depth, start = [], 0, 0
        for k, ch in enumerate(kind):
            depth += ch in "({["
            depth -= ch in ")}]"
            if depth == 0 and ch == "→":
                parts.append(kind[start:k].strip())
                start = k + 1
        parts.append(kind[start:].strip())
        n = len(self.macros_param[root]) - 1
        if len(parts) <= n:
            return None
        table = {}
        for part, name in zip(parts[:n], self.macros_param[root][1:]):
            m = re.match(r"\(([^\s:]+) : ", part)
            if m and name in more:
                table[m.group(1)] = more[name]
        last = " → ".join(parts[n:])
        turned = self.turn(last, {who or self.macros_param[root][0]: self.macros[root][1]})
        return substitute(turned, table) if table else turned

    def let_end(self, text, i):
        """Where the `in` of a let stands."""
        depth, lets = 0, 0
        while i < len(text):
            ch = text[i]
            if ch in "({[":
                depth += 1
            elif ch in ")}]":
                depth -= 1
                if depth < 0:
                    return None
            elif depth == 0 and re.match(r"\slet\s", text[i:i + 5]):
                lets += 1
            elif depth == 0 and re.match(r"\sin\s", text[i:i + 4]):
                if lets == 0:
                    return i + 1
                lets -= 1
                i += 2
            i += 1
        return None

    def place_of(self, value, env):
        value = value.strip()
        if re.fullmatch(ATOM, value):
            root, segs = value.split(".")[0], value.split(".")[1:]
            if root in env and isinstance(env[root], str):
                got = self.walk(env[root], segs)
                if got and got[0] == "place":
                    return got[1]
        whole = re.fullmatch(r"([^\s()]+)\s+(?:[^\s()]+|\(.*\))", value, re.S)
        if whole and whole.group(1) in self.macros and self.macros[whole.group(1)][0] == "place":
            return self.macros[whole.group(1)][1]
        m = re.fullmatch(r"\(?([^\s()]+)\s+[^\s()]+\)?((?:\.[^\s(){}\[\].,;:]+)*)", value)
        if m and m.group(1) in self.macros and self.macros[m.group(1)][0] == "place":
            got = self.walk(self.macros[m.group(1)][1], [s for s in m.group(2).split(".") if s])
            if got and got[0] == "place":
                return got[1]
        return None

    def path_of(self, value, env):
        root, segs = value.split(".")[0], value.split(".")[1:]
        if root not in env:
            return None
        if isinstance(env[root], tuple):
            return (env[root][1][0], env[root][1][1] + segs)
        return (env[root], segs)

    def resolve(self, root, segs, env, word):
        place, more = (env[root], segs) if isinstance(env[root], str) else (env[root][1][0], env[root][1][1] + segs)
        got = self.walk(place, more)
        if got is None:
            self.trouble.append(word)
            return word
        return ".".join(got[1]) if got[0] == "text" else "c"


def lhs_names(line):
    return line.split("=")[0].split()[1:]


def used(uses, body):
    """The `use` lines, with the names that the text has."""
    words = set(re.findall(rf"[^{SEP}]+", body))
    symbols = body
    out = []
    for line in uses:
        m = re.match(r"use ([^\s{]+)\.\{(.*)\}$", line)
        if not m:
            out.append(line)
            continue
        keep = []
        for n in [x.strip() for x in m.group(2).split(",")]:
            base = n.split(" as ")[-1].strip()
            if "◌" in base:
                parts = [p for p in base.split("◌") if p]
                if all(p in symbols for p in parts):
                    keep.append(n)
            elif base in words or (base == "[]" and "[]" in symbols):
                keep.append(n)
        if keep:
            out.append(f"use {m.group(1)}.{{{', '.join(keep)}}}")
    return out


def substitute(text, table):
    """Replaces names by table, but not where a λ or a binder of the text hides them."""
    out, stack, hidden, i = [], [], [], 0
    level = 0
    while i < len(text):
        ch = text[i]
        if ch in "([{":
            level += 1
        if ch in ")]}":
            level -= 1
            hidden = [h for h in hidden if h[1] <= level]
        if ch == "λ":
            end = text.find(". ", i)
            names = re.findall(rf"[^{SEP}λ()]+", re.sub(r":[^)]*\)", ")", text[i + 1:end]))
            for n in names:
                hidden.append((n, level))
            out.append(text[i:end])
            i = end
            continue
        m = re.compile(r"\(([^():]+) : [^()]*\) →").match(text, i)
        if m:
            for n in m.group(1).split():
                hidden.append((n, level - 1))
            out.append(text[i:m.end()])
            i = m.end()
            level -= 1
            continue
        m = ATOM.match(text, i)
        if m:
            root, segs = m.group(0).split(".")[0], m.group(0).split(".")[1:]
            if root in table and not any(h[0] == root for h in hidden):
                out.append(".".join([table[root]] + segs))
            else:
                out.append(m.group(0))
            i = m.end()
            continue
        out.append(ch)
        i += 1
    return "".join(out)


def closing(text, i):
    """Where the bracket that opens at i closes."""
    depth = 0
    for k in range(i, len(text)):
        if text[k] in "({[":
            depth += 1
        elif text[k] in ")}]":
            depth -= 1
            if depth == 0:
                return k
    return None


def commas(text):
    """The parts of a text between its own commas."""
    parts, depth, start = [], 0, 0
    for k, ch in enumerate(text):
        if ch in "({[":
            depth += 1
        elif ch in ")}]":
            depth -= 1
        elif ch == "," and depth == 0:
            parts.append(text[start:k].strip())
            start = k + 1
    return [p for p in parts + [text[start:].strip()] if p]


def tuple_parts(text, n):
    """The n parts of a tuple that nests to the right, or None."""
    text = text.strip()
    if n == 1:
        return [text]
    if not text.startswith("(") or closing(text, 0) != len(text) - 1:
        return None
    parts = commas(text[1:-1])
    if len(parts) < 2:
        return None
    if len(parts) == n:
        return parts
    last = parts[1] if len(parts) == 2 else "(" + ", ".join(parts[1:]) + ")"
    rest = tuple_parts(last, n - 1)
    if rest is None and re.fullmatch(ATOM, last):
        rest = [".".join([last] + ["1"] * i + ([] if i == n - 2 else ["0"])) for i in range(n - 1)]
    return [parts[0]] + rest if rest else None


TACTIC = re.compile(r"(search|omega|grind|cc|simp|rw|elim|refl|record|λ)(?![\w-])")


def recordize(text, names):
    """A tuple for several clauses, as the record by their names that is asked now."""
    depth, cut, k = 0, 0, 0
    while k < len(text):
        if text[k] in "({[":
            depth += 1
        elif text[k] in ")}]":
            depth -= 1
        elif depth == 0 and re.match(r"\sin\s", text[k:k + 4]):
            cut = k + 3
        k += 1
    head, last = text[:cut], text[cut:]
    body = last.strip()
    pad = last[:len(last) - len(last.lstrip())]
    parts = tuple_parts(body, len(names))
    if parts and "search rules" in parts and "let " not in head:
        return [(n, head + pad + p) for n, p in zip(names, parts) if p != "search rules"]
    if parts:
        return head + pad + "record { " + "; ".join(f"{n} = {p}" for n, p in zip(names, parts)) + " }"
    m = re.match(r"(rw|simp)\s+(\S|\()", body)
    if m and body.endswith(")"):
        depth, k = 0, len(body) - 1
        while k >= 0:
            depth += (body[k] == ")") - (body[k] == "(")
            if depth == 0:
                break
            k -= 1
        parts = tuple_parts(body[k:], len(names))
        if parts:
            return head + pad + body[:k] + "record { " + "; ".join(f"{n} = {p}" for n, p in zip(names, parts)) + " }"
    if TACTIC.match(body):
        return text
    paths = []
    for i in range(len(names)):
        paths.append(".".join(["r"] + ["1"] * i + ([] if i == len(names) - 1 else ["0"])))
    return head + pad + f"let r = {body} in record {{ " + "; ".join(f"{n} = {p}" for n, p in zip(names, paths)) + " }"


def asked_names(f, goal):
    """The names of the clauses that a goal asks at once."""
    m = re.match(r"([^-]+)-(?:.*-)?requires", goal)
    if m:
        for full in f.info["params"]:
            if full.split("::")[-1] == m.group(1):
                return contracts(full.split("::")[0]).get(m.group(1), ([], []))[0]
        return contracts(f.crate).get(m.group(1), ([], []))[0]
    if goal.startswith("returns"):
        return f.own()[1]
    return []


def turn_proof(crate, folder, info):
    path = os.path.join(folder, "Proof.antt")
    name = os.path.relpath(folder, f"crates/{crate}/proofs").replace("/", ".")
    text = open(path, encoding="utf-8").read()
    f = Function(crate, name, info)
    uses = [u for u in USE.findall(text) if not re.search(r"\.(Statement|Tie)(\.|\s|$)", u)]
    body = USE.sub("", text)
    spec = re.search(r"tie\.spec((?:\s+[^\s()]+)*)", body)
    order = spec.group(1).split() if spec else []
    parts = blocks(body)
    kept, answers, invariants = [], {}, []
    loops = {norm(l[0][0]): (l[0][1], l[1], ch) for l, ch in zip(info["loops"], info["changed"])}
    f.macros_param, f.macros_type = {}, {}
    f.answers = {}
    raw = {}
    for part in parts:
        lines = part.split("\n")
        comment = [l for l in lines if l.startswith("--")]
        code = [l for l in lines if not l.startswith("--")]
        if not code:
            kept.append(part)
            continue
        head = code[0]
        m = re.match(r"(?:abbrev )?(?:pub )?([^\s:]+) : (.*)$", head)
        if m and re.match(r"tie\.(invariant|decreases)", m.group(2)):
            kind, loop = re.match(r"tie\.(invariant|decreases)-?(\S*)", m.group(2)).groups()
            key = norm(loop)
            if key not in loops:
                f.trouble.append(f"loop {loop}")
                kept.append(part)
                continue
            new, names, changed = loops[key]
            rest = "\n".join(code[1:])
            eq = rest.index("=")
            binders = rest[:eq].split()[1:]
            want = ["l." + v if not ch else "l.initial." + v for v, ch in zip(names, changed)] + ["l." + v for v, ch in zip(names, changed) if ch]
            if len(binders) != len(want):
                f.trouble.append(f"{kind} {loop}: {len(binders)} binders, {len(want)} wanted {names} {changed}")
                kept.append(part)
                continue
            turned = substitute(rest[eq + 1:].strip(), dict(zip(binders, want)))
            invariants.append("\n".join(comment + [f"abbrev pub {kind}-{new} : goal.{kind}-{new}", f"{kind}-{new} l = {turned}"]))
            continue
        if m and re.match(r"tie\.Need-", m.group(2)):
            raw[m.group(1)] = (comment, code)
            continue
        if m and ("tie." in part or any(re.search(rf"(?<![^{SEP}]){re.escape(a)}(?![^{SEP}])", m.group(2)) for a in f.alias)) and not re.search(r"statement M", part):
            # a helper over places, or a type's other name
            al = re.match(r"(?:abbrev )?(\S+) : Type 0", head)
            if al and len(code) > 1 and "= tie." in code[1]:
                p = f.place(code[1].split("=", 1)[1])
                if p:
                    f.alias[m.group(1)] = p
                    continue
            kind = m.group(2)
            first = re.match(r"\(([^\s:]+) : (tie\.[^()]*)\)\s*→?\s*(.*)$", kind) or re.match(r"\(([^\s:]+) : (%s)\)\s*→?\s*(.*)$" % ("|".join(map(re.escape, f.alias)) or "$^"), kind) or re.match(r"()(tie\.[^→]*)→\s*(.*)$", kind) or (re.match(r"()([^\s→()]+)\s*→\s*(.*)$", kind) if kind.split()[0] in f.alias else None)
            rest = "\n".join(l for l in code[1:] if not l.startswith("unfolding"))
            if first and "=" in rest:
                p = f.place(first.group(2))
                left = rest[:rest.index("=")].split()
                value = rest[rest.index("=") + 1:].strip()
                to = f.place(first.group(3))
                if (p or to) and len(left) >= 2:
                    f.macros_param[m.group(1)] = left[1:]
                    f.macros[m.group(1)] = ("place", to) if to and len(left) == 2 else ("value", p, value)
                    f.macros_type[m.group(1)] = None if head.startswith("abbrev") else (first.group(1), first.group(3))
                    continue
            al2 = re.match(r"(?:abbrev )?(\S+) : Type", head)
            f.trouble.append("helper " + head[:80])
            kept.append(part)
            continue
        if re.search(r": \{M : Type 1\} → statement M|→ statement", part):
            continue
        kept.append(part)
    names = [n for n in order if n in raw]
    pairs = {}
    if len(names) == len(f.goals):
        for n, g, at in zip(names, f.goals, f.at):
            pairs[n] = (g[1], at)
    else:
        table = {}
        for g, at in zip(f.goals, f.at):
            table.setdefault(g[0], (g[1], at))
        for n, (comment, code) in raw.items():
            need = re.match(r"[^:]+: tie\.Need-(\S+)", code[0]).group(1)
            for key in (norm(need), norm(re.sub(r"^(overflow|slice-bounds)-", "", need)), norm(need).replace("slice-aggregate", "slice-aggregate")):
                if key in table:
                    pairs[n] = table[key]
                    break
            else:
                f.trouble.append(f"goal {n} ({len(names)} of {len(f.goals)})")
    referred = " ".join("\n".join(code) for _, code in raw.values())
    f.answers = {n: pairs[n][0] for n in pairs}
    texts = []
    for n in names or list(raw):
        if n not in pairs:
            texts.append("\n".join(["-- TO DO"] + ["-- " + l for l in raw[n][1]]))
            continue
        comment, code = raw[n]
        goal, at = pairs[n]
        unfold = [l for l in code[1:] if l.startswith("unfolding")]
        unfold = [u for u in (("unfolding " + " ".join(w for w in l.split()[1:] if w not in f.macros)) for l in unfold) if u != "unfolding "]
        rest = "\n".join(l for l in code[1:] if not l.startswith("unfolding"))
        eq = rest.index("=")
        binders = rest[:eq].split()[1:]
        value = rest[eq + 1:].strip()
        flat = re.sub(r"\s+", " ", value)
        cited = len(re.findall(rf"(?<![^{SEP}]){re.escape(n)}(?![^{SEP}])", referred)) > 2
        if flat == "search rules" and not cited and not comment and not unfold:
            continue
        turned = f.turn(value, {binders[0]: at} if binders else {})
        # What the test of an `if !x` says is now said of x itself.
        turned = re.sub(r"not-(?:true|false) [^\s()]+ (c\.if-not-[^\s()]+)", r"\1", turned)
        turned = turned.replace(".type-inv", ".type_inv").replace(".well-formed", ".well_formed")
        asked = [a for a in asked_names(f, goal) if a]
        if len(asked) > 1:
            turned = recordize(turned, asked)
        said = [(goal, turned)] if isinstance(turned, str) else [(f"{goal}-clause-{n}", t) for n, t in turned]
        for name_, turned in said:
            if "\n" in turned:
                turned = "\n    " + turned
            texts.append("\n".join(comment + [f"pub {name_} : goal.{name_}"] + unfold + [f"{name_} c = {turned}".replace("= \n", "=\n")]))
            comment = []
    module = f"Rattle.{crate}.proofs.{name}"
    if invariants:
        # What an invariant cites stands beside it, and the answers bring it from there.
        def head_name(part):
            m = re.search(r"^(?:(?:abbrev|unfoldable|pub|record|data) )*([^\s:(]+)", "\n".join(l for l in part.split("\n") if not l.startswith("--")))
            return m.group(1) if m else ""

        cited, moved = True, []
        while cited:
            text_ = "\n".join(invariants + moved)
            cited = [k for k in kept if head_name(k) and not k.startswith("ruleset") and head_name(k) in re.findall(rf"[^{SEP}]+", text_)]
            kept = [k for k in kept if k not in cited]
            moved = cited + moved
        if moved:
            names_ = [head_name(k) for k in moved]
            uses.append(f"use {module}.Invariants.{{{', '.join(names_)}}}")
            moved = [re.sub(r"^((?:abbrev |unfoldable |record |data )?)(?=[^\s-])", lambda m: m.group(1) + "pub " if not re.search(r"(^|\n)\S*\s?pub ", k) else m.group(1), k, count=1) if not k.startswith("--") else re.sub(r"(\n)((?:abbrev |unfoldable |record |data )?)(?=[^\s-])(?!pub)", lambda m: m.group(1) + m.group(2) + "pub ", k, count=1) for k in moved]
        bodies = "\n\n".join(moved + invariants)
        with open(os.path.join(folder, "Invariants.antt"), "w", encoding="utf-8") as o:
            o.write("\n".join(used([u for u in uses if not u.startswith(f"use {module}.")], bodies) + [f"use {module}.Given as goal"]) + "\n\n" + bodies + "\n")
    if texts:
        bodies = "\n\n".join(kept + texts)
        with open(os.path.join(folder, "Answers.antt"), "w", encoding="utf-8") as o:
            o.write("\n".join(used(uses, bodies) + [f"use {module}.Goals as goal"]) + "\n\n" + bodies + "\n")
    elif kept:
        f.trouble.append("dropped " + "; ".join(k.split("\n")[0][:60] for k in kept))
    keep = os.path.join("/tmp/old-proofs", crate, name)
    os.makedirs(keep, exist_ok=True)
    shutil.move(path, os.path.join(keep, "Proof.antt"))
    if not texts and not invariants and not os.listdir(folder):
        os.rmdir(folder)
    return f.trouble


def main(argv):
    names, crate, only = argv[0], argv[1], argv[2:]
    data = json.load(open(os.path.join(names, "crates", crate, "names.json")))
    for path in sorted(glob.glob(f"crates/{crate}/proofs/**/Proof.antt", recursive=True)):
        folder = os.path.dirname(path)
        name = os.path.relpath(folder, f"crates/{crate}/proofs").replace("/", ".")
        if only and name not in only:
            continue
        info = data.get(f"Rattle-{crate}-proofs.{name}.Lts")
        if not info:
            print(f"{crate} {name}: no names")
            continue
        try:
            trouble = turn_proof(crate, folder, info)
        except Exception as e:
            print(f"{crate} {name}: {type(e).__name__} {e}")
            continue
        if trouble:
            print(f"{crate} {name}: " + "; ".join(trouble))
    return 0


if __name__ == "__main__":
    raise SystemExit(main(sys.argv[1:]))
