#!/usr/bin/env python3
"""Brings the names of this repository's own definitions and lemmas to the toolchain's spelling: words in snake case, facts
and modules in camel case. Run at the top of the repository, after the toolchain's own port script; a second run changes nothing."""

import os
import re

# Names whose new spelling is not the old one with `_` for `-`.
OTHERS = {
    # A function of src/ has the plain name.
    "drop-undoes-add": "drop_undoes_add_lem",
    "over-one": "over_one_lem",
    "settle-changes-one-place": "settle_changes_one_place_lem",
    # A module of src/ has the plain name.
    "by-missed": "by_missed_byte",
    # The library's function is spelled so.
    "getD-cut": "get_or-cut",
    "getD-laid-before": "get_or-laid_before",
    "getD-laid-in": "get_or-laid_in",
    # Modules.
    "scale-kind": "TheScales",
    "rule-kind": "TheRules",
    "as-record": "TheRecords",
}

# Variables and parameters, which no declaration of their own introduces.
VARIABLES = """
was-totals was-next was-answer was-good was-bad new-out new-plan new-place when-up when-open when-down not-aside not-lost not-kept
""".split()

# Facts and modules that were spelled as plain words, in these files alone.
IN_FILES = {
    "crates/records/specs/Reading.antt": {"fits": "BodyFits", "kind.": "TheKinds.", "as kind": "as TheKinds"},
    "crates/records/proofs/Framing.antt": {"fits": "BodyFits", "few": "Few"},
    "crates/replay/specs/Answers.antt": {"kind.": "TheKinds.", "as kind": "as TheKinds", "model.": "TheModel.", "as model": "as TheModel"},
}

WORD = r"[\w'·≤<≡◌]"
DECLARED = re.compile(r"^\s*(?:abbrev |unfoldable )?(?:pub )?([^\s(){}:,;λ=.]+)\s*(?:\(.*|\{.*)?:\s")


def files(endings):
    for folder, dirs, names in os.walk("crates"):
        dirs[:] = sorted(d for d in dirs if d != "out")
        for name in sorted(names):
            if name.endswith(endings):
                yield os.path.join(folder, name)


def read(path):
    with open(path, encoding="utf-8") as f:
        return f.read()


def declared():
    """The names with a dash that specs/ and proofs/ declare; a name of the toolchain's own is one that answers a goal."""
    found = set()
    for path in files(".antt"):
        for line in read(path).splitlines():
            m = DECLARED.match(line)
            if m and "-" in m[1] and m[1] not in OTHERS.values() and not re.search(r":\s*goal\.", line):
                found.add(m[1])
    return found


def main():
    names = {n: n.replace("-", "_") for n in declared() | set(VARIABLES)} | OTHERS
    whole = re.compile(rf"(?<!{WORD})(?<!-)(" + "|".join(sorted(map(re.escape, names), key=len, reverse=True)) + rf")(?!{WORD})(?!-)")
    for path in files((".antt", ".rt", ".edit")):
        old = new = read(path)
        lines = []
        for line in old.splitlines(keepends=True):
            # Comments keep their words.
            code, comment = re.match(r"(.*?)((?:--|//).*)?$", line, re.S).groups() if re.search(r"^\s*(--|//)", line) else (line, "")
            code = whole.sub(lambda m: names[m[1]], code)
            for word, to in IN_FILES.get(path, {}).items():
                if word.endswith("."):
                    code = re.sub(rf"(?<![\w.]){re.escape(word)}(?=[A-Z])", to, code)
                else:
                    code = re.sub(rf"(?<![\w.'-]){re.escape(word)}(?![\w'-])", to, code)
            lines.append(code + (comment or ""))
        new = "".join(lines)
        if new != old:
            with open(path, "w", encoding="utf-8") as f:
                f.write(new)


main()
