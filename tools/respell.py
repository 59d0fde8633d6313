#!/usr/bin/env python3
"""Spells the repository's own definitions and lemmas as today's Rattle does: words in snake case, joined by an underscore.

usage: python3 tools/respell.py [--check]      at the top of a repository that port.py has turned

A name that an .antt file declares with a small first letter, and that has a capital or a dash in it, is turned in every .antt file, in every
clause and ghost item of an .rt file and in comments. Names that Rattle makes of the source stay, such as those of goals. Where two names would fall
together, or one would meet a variable that is called so in a file that uses it, a definition gets '_of' and a lemma '_lem' at its end.
--check prints the table and writes nothing.
"""

import collections
import glob
import os
import re
import subprocess
import sys
import tempfile

KIT = os.path.dirname(subprocess.run(["rt", "doc"], capture_output=True, text=True).stdout.strip())
SNAKE = os.path.join(KIT, "port/notes/2026-11-18-names-are-in-snake-case")
sys.dont_write_bytecode = True
sys.path.insert(0, SNAKE)
import snake  # noqa: E402

NAME = r'[^\s(){}.;,@"«»]+'
DECLARED = re.compile(r"(?m)^ *(?:(?:pub|abbrev|unfoldable|data|record|ruleset) +)*(" + NAME + r")(?: \{[^{}\n]*\}| \([^()\n]*\))* : *(.*)$")
KINDS = r"WFIS|FIS|WD|INV|GRD|SIM|NAT|VAR"
CHOSEN = {
    "roomOf": "room_for",
    "byZero": "divided_by_zero",
    "press-fault": "press_at_fault",
    "action-fault": "action_at_fault",
    "step-fault": "step_at_fault",
    "no-sequent": "no_sequent_there",
    "sim-new": "sim_of_new",
    "witness-root": "root_of_witness",
}
MADE = re.compile(r"(invariant|decreases|measure|Inv|μ)-loop.*|returns(-.*)?|.*-requires(-.*)?|overflow_.*|bounds-.*|slice_.*|nonzero_.*")
PROOF = re.compile(r"/proofs/.*/(Proof|Answers|Invariants)\.antt$")


def in_snake_case(name):
    """Each kind of sequent, as WD, is a word."""
    words = re.sub(KINDS, lambda m: m[0].capitalize(), name)
    words = re.sub(r"(?<=[a-z0-9])[A-Z]", lambda m: "_" + m[0], words)
    return words.replace("-", "_").lower()


def names():
    """The names that are declared, and for each file the words that stand in its code behind no dot."""
    declared, used = collections.defaultdict(set), {}
    for path in snake.files_below("crates"):
        if path.endswith(".antt"):
            with open(path, encoding="utf-8") as f:
                code = snake.QUIET.sub(" ", f.read())
            for name, kind in DECLARED.findall(code):
                made = PROOF.search(path) and (MADE.fullmatch(name) or kind.startswith(("tie.", "goal.")))
                if not made:
                    declared[name].add(path)
        elif path.endswith(".rt"):
            with open(path, encoding="utf-8") as f:
                code = re.sub(r'//[^\n]*|"(?:\\.|[^"\\])*"', " ", f.read())
            # what a clause could mean by the name: no function, and nothing behind a dot or a path
            code = re.sub(r"(?m)^ *(pub )?use [^;]*;|\b\w+(?=(?:<[^()\n]*>)?\()|(?<=[.:])\w+", " ", code)
            code = snake.GHOST_USE.sub(lambda m: m[0][m[0].find("{") :], code)
        else:
            continue
        used[path] = set(re.findall(r'(?<![^\s(){},;:<>&*\[\]@"«»])([^\s(){}.;,@"«»:<>&*\[\]]+)', code)) if path.endswith(".rt") else set(re.findall(r'(?<![^\s(){},;@"«»])(' + NAME + ")", code))
    return declared, used


def table():
    declared, used = names()
    old = sorted(n for n in declared if n[0].islower() and in_snake_case(n) != n)
    turned = {}
    for name in sorted(old, key=lambda n: ("-" in n, n)):
        new = CHOSEN.get(name, in_snake_case(name))
        where = [p for p in used if name in used[p]]

        def taken(it):
            return it in turned.values() or it in declared or any(it in used[p] for p in where)

        while taken(new):
            new += "_lem" if "-" in name else "_of"
        turned[name] = new
    return turned


class Turner(snake.Turner):
    """A name that a file brings in from a library stays in that file."""

    def brought(self, text):
        self.kept = set()
        for path, items in re.findall(r"\buse ([^\s;{]+)\{([^}]*)\}", text):
            steps = path.strip(".").split(".")
            if steps[0] != "Rattle" or not os.path.isdir(os.path.join("crates", steps[1])):
                self.kept.update(snake.WORD.findall(items))

    def antt(self, text, where, in_code=None):
        if in_code is None:
            self.brought(text)
        return super().antt(text, where, in_code)

    def rt(self, text, where):
        self.brought(text)
        return super().rt(text, where)


def aliases():
    """Spells the names alike that a file gives to what it brings in, as 'verdict as verdictOf'."""
    for path in snake.files_below("crates"):
        if not path.endswith((".antt", ".rt")):
            continue
        with open(path, encoding="utf-8") as f:
            text = f.read()
        turned = text
        for old in set(re.findall(r"\bas ([a-z]+(?:[A-Z]|-[a-z])[A-Za-z-]*)(?=[,}\n;])", text)):
            new = in_snake_case(old)
            if old[0].islower() and not re.search(r"(?<![\w'-])" + new + r"(?![\w'-])", text) and not PROOF.search(path):
                turned = re.sub(r"(?<![\w.'-])" + re.escape(old) + r"(?![\w'-])", new, turned)
        if turned != text:
            with open(path, "w", encoding="utf-8") as f:
                f.write(turned)


def main():
    snake.Turner = Turner
    turned = table()
    if "--check" in sys.argv:
        for old, new in sorted(turned.items()):
            print(f"{old}\t{new}" + ("" if new == in_snake_case(old) else "\t*"))
        return
    with tempfile.NamedTemporaryFile("w", suffix=".tsv", delete=False) as f:
        f.writelines(f"{old}\t{new}\n" for old, new in sorted(turned.items()))
    snake.main(["--table", f.name, "--prose", "file", "crates"])
    os.unlink(f.name)
    aliases()
    for crate in sorted(glob.glob("crates/*/src")):
        subprocess.run(["rt", "fmt"], cwd=os.path.dirname(crate), stdout=subprocess.DEVNULL)


if __name__ == "__main__":
    main()
