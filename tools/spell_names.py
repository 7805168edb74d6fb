#!/usr/bin/env python3
"""Spells the repository's own definitions, lemmas, record fields and ghost members in snake case.

usage: python3 tools/spell_names.py [ROOT]    once, right after the kit's own respelling of an older repository (a second time would respell LEMMAS again)

Names that begin with a capital (types, modules, variants) stay. Functions of src/ stay, since they are
in snake case already. Names that the check makes up (goals, steps) stay, since no file defines them.
Strings and comments of .rt files stay. A lemma whose name would fall together with that of a definition
gets the ending _holds. With --dry nothing is written, and what would fall together in one file is listed.
"""

import collections
import os
import re
import sys

TOKEN = re.compile(r"[A-Za-z_][A-Za-z0-9_'-]*")
HEAD = re.compile(r"^(?:(?:abbrev|opaque|unfoldable|pub|instance)\s+)*(?:(?:record|data)\s+)?([a-z][A-Za-z0-9_'-]*)\s.*?:(?:\s|$)")
FIELD = re.compile(r"^\s+(?:pub\s+)?([a-z][A-Za-z0-9_'-]*)\s+:\s")
GHOST = re.compile(r"^\s*(?:pub\s+)?ghost\s+(?!use\b|invariant\b|fn\b)([a-z][A-Za-z0-9_'-]*)\s*[:=]\s")
MADE = ("Answers.antt", "Invariants.antt", "Proof.antt", "Lib.antt")
KEEP = {"module"}
# Lemmas that the kit's respelling had put into snake case, beside definitions that now get their names.
LEMMAS = {"all_right": "all_right_holds", "held_in": "held_in_holds"}
# What stands in front of a field of ours, in a path of steps that the check made.
FACTS = ("ensures", "requires", "invariant", "answer", "after")


def files(root):
    for folder, dirs, names in os.walk(os.path.join(root, "crates")):
        dirs[:] = sorted(d for d in dirs if d not in ("out", "target"))
        for n in sorted(names):
            if n.endswith((".rt", ".antt")):
                yield os.path.join(folder, n)


def answers(path):
    """Whether a file answers what the check asks, by the names that the check makes up."""
    return os.path.basename(path) in MADE and os.sep + "proofs" + os.sep in path


def snake(name):
    name = re.sub(r"(?<=[a-z0-9])([A-Z])", lambda m: "_" + m[1].lower(), name)
    return name.replace("-", "_").lower()


def defined(path, text):
    """The names that a file defines: of specs/ and lemma files, at the margin and as fields of records; of src/, ghost members."""
    if path.endswith(".rt"):
        return {m[1] for l in text.split("\n") if (m := GHOST.match(l))}
    if answers(path):
        return set()
    out, inside = set(), False
    for l in text.split("\n"):
        if l.startswith(("use ", "pub use ", "mod ", "pub mod ", "--")):
            continue
        if l and not l[0].isspace():
            inside = bool(re.match(r"(?:pub\s+)?record\b", l))
            if m := HEAD.match(l):
                out.add(m[1])
        elif inside and (m := FIELD.match(l)):
            out.add(m[1])
    return out


def main(argv):
    dry = "--dry" in argv
    root = next((a for a in argv if a != "--dry"), ".")
    texts = {p: open(p, encoding="utf-8").read() for p in files(root)}
    own = set().union(*(defined(p, t) for p, t in texts.items())) - KEEP
    new = {n: snake(n) for n in own if snake(n) != n}
    clash = collections.defaultdict(set)
    for n in own:
        clash[snake(n)].add(n)
    new |= {n: snake(n) + "_holds" for some in clash.values() if len(some) > 1 for n in some if "-" in n}
    new |= LEMMAS
    together = collections.defaultdict(set)
    for old, to in new.items():
        together[to].add(old)
        if to in own:
            together[to].add(to)
    for p, t in texts.items():
        tokens = set(TOKEN.findall(t))
        for to, olds in sorted(together.items()):
            here = (olds | {to}) & tokens
            if len(here) > 1:
                print(f"together: {os.path.relpath(p, root)}: {to} from {' '.join(sorted(here))}")
    if dry:
        return 0
    for p, t in texts.items():
        # The names that the check makes up stand behind 'goal.' or at the margin of a file of answers.
        made = answers(p)
        out = []

        def respell(m, code):
            before = re.search(r"(?:[A-Za-z_][A-Za-z0-9_'-]*\.)+$", code[: m.start()])
            path = before[0][:-1].split(".") if before else []
            if made and path and (path[0] == "goal" or (path[0] in ("c", "g", "l", "w") and path[-1] not in FACTS)):
                return m[0]
            return new.get(m[0], m[0])

        for line in t.split("\n"):
            code, cut, rest = (line, "", "") if p.endswith(".antt") else line.partition("//")
            head = re.match(r"(?:abbrev |pub )*[a-z][A-Za-z0-9_'-]*", code) if made and not code.startswith(("use ", "unfolding ")) else None
            at = head.end() if head else 0
            respelt = TOKEN.sub(lambda m: respell(m, code[at:]), code[at:])
            out.append(code[:at] + respelt + cut + rest)
        it = "\n".join(out)
        if it != t:
            with open(p, "w", encoding="utf-8") as f:
                f.write(it)
    print(f"{len(new)} names respelt")
    return 0


if __name__ == "__main__":
    raise SystemExit(main(sys.argv[1:]))
