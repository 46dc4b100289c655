#!/usr/bin/env python3
"""Brings the repository's own names in specs/, proofs/ and ghost code to today's spelling.

usage: python3 tools/respell.py [ROOT]     run once, at the top of the repository, after the kit's port.py

Definitions, lemmas, fields, constructors and local names are in snake case; types, records and facts (what gives a type)
in upper camel case. In the proof of a function a step that goes by a name of the source keeps the source's spelling, and a
dash joins the parts. Functions of src/, strings, comments, inputs and outputs stay; in README.md and docs/ the names
between backticks change alike. It prints names that would fall together, and then writes nothing.
"""

import os
import re
import sys

# where plain respelling would meet another name
BY_HAND = {
    "bit-and": "bit_of_and",
    "bit-or": "bit_of_or",
    "bit-xor": "bit_of_xor",
    "ber-control": "ber_control_cell",
    "Latch-entry": "EntryLatch",
    "Count-entry": "EntryCount",
    "Latches-told": "TellsLatches",
    "Counts-told": "TellsCounts",
}

TOKEN = re.compile(r"(?<![\w'◌-])[^\W\d][\w']*(?:-[\w'*]+)*")
SIGNATURE = re.compile(r"^\s*(?:abbrev |unfoldable |opaque )*(?:pub )?([^\W\d][\w'-]*)\s*:(?!=)\s*(.*)$")
HEAD = re.compile(r"^\s*(?:pub )?(?:data|record)\s+([^\W\d][\w'-]*)")
DERIVED = re.compile(r"\bas ([^\W\d][\w'-]*)")
OWN = re.compile(r"^Rattle\.(\w+)\.")
# words of the logic and of proof files that have a dash by right, or one that goes by another rule
MADE = {"in-default": "in_default", "type-inv": "type_inv"}


def camel(name):
    return "".join(p[:1].upper() + p[1:] for p in re.split(r"[-_]", name) if p)


def snake(name):
    return name.replace("-", "_")


def files(root):
    crates = os.path.join(root, "crates")
    for crate in sorted(os.listdir(crates)):
        for sub in ("specs", "proofs", "src"):
            for folder, dirs, names in os.walk(os.path.join(crates, crate, sub)):
                dirs.sort()
                for f in sorted(names):
                    if f.endswith((".antt", ".rt")):
                        yield crate, os.path.join(folder, f)


def is_walk(path):
    """A file of a function's proof, whose names are goals and steps."""
    parts = path.split(os.sep)
    at = len(parts) - 1 - parts[::-1].index("proofs") if "proofs" in parts else None
    return at is not None and len(parts) - at > 2


def code_parts(line, antt):
    """A line as parts (text, is code): comments and strings are not code."""
    mark = "--" if antt else "//"
    out, at, start, text = [], 0, 0, False
    while at < len(line):
        if not text and line.startswith(mark, at):
            out.append((line[start:at], True))
            out.append((line[at:], False))
            return out
        if line[at] == '"' and not antt:
            if text:
                out.append((line[start:at + 1], False))
                start = at + 1
            else:
                out.append((line[start:at], True))
                start = at
            text = not text
        elif text and line[at] == "\\":
            at += 1
        at += 1
    out.append((line[start:], not text))
    return out


def imports(line, crates):
    """The names that a line takes from the kit."""
    m = re.match(r"\s*(?:pub )?(?:ghost )?use ([\w.'+◌∥₁-]+?)\.\{(.*)\}", line)
    if not m:
        return None
    own = OWN.match(m.group(1))
    mine = bool(own and own.group(1) in crates)
    return mine, [p.strip() for p in m.group(2).split(",")]


def gather(root):
    crates = set(os.listdir(os.path.join(root, "crates")))
    defined, facts, kit, rust, tokens = set(), set(), {}, {}, {}
    for crate, path in files(root):
        antt = path.endswith(".antt")
        lines = open(path, encoding="utf-8").read().split("\n")
        kit.setdefault(crate, set())
        if not antt:
            rust.setdefault(crate, set()).update(re.findall(r"[^\W\d]\w*_\w+", "\n".join(lines)))
        for i, line in enumerate(lines):
            took = imports(line, crates)
            if took:
                mine, names = took
                for n in names:
                    plain = re.split(r" as ", n)
                    if not mine:
                        kit[crate].update(plain)
                    elif len(plain) == 2:
                        defined.add(plain[1])
                        facts.add(plain[1]) if plain[1][:1].isupper() else None
                continue
            if not antt:
                continue
            code = code_parts(line, True)[0][0]
            if is_walk(path):
                continue
            m = HEAD.match(code)
            if m:
                defined.add(m.group(1))
                facts.add(m.group(1))
            m = SIGNATURE.match(code)
            if m:
                defined.add(m.group(1))
                rest = m.group(2)
                for more in lines[i + 1:i + 8]:
                    if not re.match(r"\s+(→|×)", more):
                        break
                    rest += " " + more
                if re.search(r"(^|→ )Type( \d)?\s*$", code_parts(rest, True)[0][0].rstrip()):
                    facts.add(m.group(1))
            defined.update(DERIVED.findall(code) if "deriving" in code else [])
    return crates, defined, facts, kit, rust


def mapping(root):
    crates, defined, facts, kit, rust = gather(root)
    to = {}
    for name in defined:
        if name in BY_HAND:
            to[name] = BY_HAND[name]
        elif name in facts and re.search(r"[-_]", name):
            to[name] = camel(name)
        elif "-" in name:
            to[name] = snake(name)
    return crates, defined, kit, rust, to


def locals_of(path, to, kit):
    """Names that a file binds for itself: they are in snake case too."""
    out = {}
    for line in open(path, encoding="utf-8").read().split("\n"):
        code = code_parts(line, True)[0][0]
        if imports(line, ()) is not None:
            continue
        for m in TOKEN.finditer(code):
            name = m.group(0)
            before = code[:m.start()]
            if "-" in name and name not in to and name not in kit and not before.endswith("."):
                out[name] = snake(name)
    return out


def together(root, crates, kit, to):
    """Names of one crate that would be one."""
    bad = []
    for crate in sorted(crates):
        seen = {}
        for c, path in files(root):
            if c != crate or not path.endswith(".antt") or is_walk(path):
                continue
            for line in open(path, encoding="utf-8").read().split("\n"):
                for m in TOKEN.finditer(code_parts(line, True)[0][0]):
                    old = m.group(0)
                    new = to.get(old, snake(old) if old not in kit.get(crate, ()) else old)
                    seen.setdefault(new, {}).setdefault(old, set()).add(os.path.basename(path))
        for new, olds in seen.items():
            if len(olds) > 1:
                bad.append(f"{crate}: {new} <- " + "; ".join(f"{o} ({', '.join(sorted(w)[:4])})" for o, w in sorted(olds.items())))
    return bad


def steps(name, sources):
    """A goal or a step: the names of the source that it is made of keep their spelling."""
    if name in MADE:
        return MADE[name]
    name = re.sub(r"\bin-default\b", "in_default", name)
    name = re.sub(r"^invariant-of-", "invariant_of-", name)
    parts, out, i = name.split("-"), [], 0
    while i < len(parts):
        for k in range(len(parts), i + 1, -1):
            if "_".join(parts[i:k]) in sources:
                out.append("_".join(parts[i:k]))
                i = k
                break
        else:
            out.append(parts[i])
            i += 1
    return "-".join(out)


STD_CALLS = {"as_mut_slice", "as_slice", "iter_mut", "saturating_add", "wrapping_add", "checked_add", "is_some", "is_none", "try_from", "as_bytes", "from_iter", "take_while", "to_vec", "copy_from_slice", "split_at", "split_at_mut", "get_mut", "unwrap_or", "map_err", "ok_or", "with_capacity", "into_iter", "as_str", "write_all"}


def turn(path, crate, to, kit, rust):
    antt = path.endswith(".antt")
    walk = antt and is_walk(path)
    own = {} if walk or not antt else locals_of(path, to, kit[crate])
    sources = rust.get(crate, set()) | STD_CALLS
    out = []
    here = set()
    for line in open(path, encoding="utf-8").read().split("\n"):
        took, m = imports(line, ()), SIGNATURE.match(line)
        if took:
            here.update(n for p in took[1] for n in p.split(" as "))
        elif m and antt and not walk:
            here.add(m.group(1))
    for line in open(path, encoding="utf-8").read().split("\n"):
        took = imports(line, ())
        parts = []
        for text, is_code in code_parts(line, antt):
            if not is_code:
                parts.append(text)
                continue

            def change(m):
                name = m.group(0)
                after_dot = text[:m.start()].endswith(".")
                if "-" not in name and (name not in here or after_dot or re.search(r"(ensures|requires|ghost) $", text[:m.start()])):
                    # a clause's label, or another crate's word
                    return name
                if took is not None:
                    # what the kit has keeps its name
                    return name if name in kit[crate] and name not in to else to.get(name, name)
                if name in kit[crate]:
                    return name
                if walk and "-" in name:
                    if name in to and to[name] and not (after_dot and re.search(r"\bc\.$", text[:m.start()])):
                        return to[name]
                    return steps(name, sources)
                return to.get(name, own.get(name, name))

            parts.append(TOKEN.sub(change, text))
        out.append("".join(parts))
    return "\n".join(out)


def docs(root, to):
    names = ["README.md"] + sorted("docs/" + f for f in os.listdir(os.path.join(root, "docs")) if f.endswith(".md") and f not in ("PORT.md",))
    for n in names:
        p = os.path.join(root, n)
        text = open(p, encoding="utf-8").read()
        new = re.sub(r"`[^`\n]+`", lambda m: TOKEN.sub(lambda t: to.get(t.group(0), t.group(0)), m.group(0)), text)
        if new != text:
            open(p, "w", encoding="utf-8").write(new)


def main(root, force):
    crates, defined, kit, rust, to = mapping(root)
    bad = together(root, crates, kit, to)
    if bad:
        print("names that would fall together:\n  " + "\n  ".join(bad))
        if not force:
            return 1
    written = 0
    for crate, path in list(files(root)):
        new = turn(path, crate, to, kit, rust)
        if new != open(path, encoding="utf-8").read():
            open(path, "w", encoding="utf-8").write(new)
            written += 1
    docs(root, to)
    print(f"{len(to)} names, {written} files")
    return 0


if __name__ == "__main__":
    args = [a for a in sys.argv[1:] if a != "--anyway"]
    sys.exit(main(args[0] if args else ".", "--anyway" in sys.argv))
