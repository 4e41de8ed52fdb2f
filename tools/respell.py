#!/usr/bin/env python3
"""Brings the names of this repository's definitions, lemmas and ghost fields to today's spelling.

usage: python3 tools/respell.py [--list]        at the top, once, after the kit's port.py

A name in camel case (nodesOf) becomes snake case (nodes_of). A dash stays where it joins two names (length-nodes_of), and a
word that hangs on becomes `_word` (root_is). Types, modules and constructors keep their capitals. A name from Rattle source keeps
its spelling, and so does a name that the toolchain makes (a goal, a step of a proof's record): neither is declared in an .antt file.
--list writes nothing and prints the map, a line `old new` each.
"""

import os
import re
import sys

LETTER = r"[\w'₀-₉ℕ+≤≡∙⇒¬∧∨⟨⟩·-]"
TOKEN = re.compile(r"(?<![\w'₀-₉·-])[^\W\d]" + r"[\w'₀-₉·-]*")
SIGNATURE = re.compile(r"^([ ]*)(?:(?:abbrev|unfoldable|pattern|pub)\s+)*([^\s(){}\[\],;:=]+(?: [^\s(){}\[\],;:=]+)*) :(?:\s(.*))?$")
GOAL = re.compile(r"^(?:tie|goal|needs|n|lts|given)\.")
# words of the logic that a dash may join
WORDS = set(
    "length take drop set sets get_or replicate append map filter sum min max not and or add sub mul div mod pow le lt ltb leb eq eqb cond zero suc nil cons pred "
    "nat bool list paste reverse concat lookup mem subset even odd"
    .split()
)


def texts(root):
    for folder, dirs, files in os.walk(os.path.join(root, "crates")):
        dirs[:] = sorted(d for d in dirs if d not in ("out", ".git"))
        for name in sorted(files):
            if name.endswith((".rt", ".antt")) or (name.endswith(".edit")):
                yield os.path.join(folder, name)


def plain(text):
    """The text with comments and strings blanked."""
    return re.sub(r"--[^\n]*", lambda m: " " * len(m[0]), text)


def snake(word):
    if word == "getD":
        return "get_or"
    if word.startswith("getD"):
        word = "getOr" + word[4:]
    if word[:1].isupper():
        return word
    return re.sub(r"(?<=[a-z0-9])([A-Z])", lambda m: "_" + m[1], word).lower() if re.search(r"[a-z0-9][A-Z]", word) else word


def declared(root):
    """Names that .antt files declare: all, those with a definition's own text (no lemma), and fields."""
    names, fields = {}, set()
    for path in texts(root):
        if not path.endswith(".antt"):
            continue
        with open(path, encoding="utf-8") as f:
            text = plain(f.read())
        inside = False
        for line in text.split("\n"):
            if re.match(r"^(?:(?:abbrev|unfoldable|pub)\s+)*record\b", line):
                inside = True
                continue
            if line and not line.startswith(" "):
                inside = False
            found = SIGNATURE.match(line)
            if not found or re.match(r"^\s*(?:let|λ|use|in|as|elim|where)\b", line):
                continue
            if GOAL.match(found[3] or ""):
                continue
            for name in found[2].split():
                if name in ("pub", "_"):
                    continue
                if inside:
                    fields.add(name)
                elif len(found[1]) <= 2:
                    names.setdefault(name, set()).add((os.path.relpath(path, root), (found[3] or "").strip()))
    return names, fields


def function(statements):
    """Is it declared as a function or a type, rather than as a law (whose statement ends in an equation or a fact)?"""
    return any(re.search(r"(?:^|→ )(?:ℕ|Bool|List [^→≡]*|Type[^→≡]*|[A-Z]\w*(?: [\w() ]*)?)$", s) and "≡" not in s for _, s in statements)


def renamed(name, known):
    words = [snake(w) for w in name.split("-")]
    if len(words) == 1 or words[-1] == "spec":
        return "_".join(words)
    parts, at = [], 0
    while at < len(words):
        for end in range(len(words), at, -1):
            joined = "_".join(words[at:end])
            if joined in known or (end == at + 1 and joined[:1].isupper()):
                parts.append((joined, True))
                at = end
                break
        else:
            parts.append((words[at], False))
            at += 1
    text, named = parts[0]
    for word, is_name in parts[1:]:
        text += ("-" if (named and is_name) or (text[:1].isupper() and "-" not in text and "_" not in text) else "_") + word
        named = is_name
    return text


def table(root):
    names, fields = declared(root)
    known = WORDS | {snake(n) for n, s in names.items() if "-" not in n and function(s)}
    result = {}
    for name in list(names) + sorted(fields):
        if name in result or not re.match(r"[^\W\d]", name):
            continue
        new = renamed(name, known)
        if new != name:
            result[name] = new
    # Names that would fall together: the law (which had a dash, or has an underscore from the kit's script) is called after its function.
    by_new = {}
    for name in set(names) | fields:
        by_new.setdefault(result.get(name, name), set()).add(name)
    for new, olds in by_new.items():
        laws = [n for n in olds if "-" in n] if any("-" in n for n in olds) else [n for n in olds if "_" in n]
        if len(olds) > 1:
            for law in laws:
                result[law] = new + "_lem"
    return result, names, fields


def respelt(text, names, fields, ghost_only):
    def change(found):
        word = found[0]
        if word not in names:
            return word
        before = text[max(0, found.start() - 80):found.start()]
        if before.endswith("."):
            owner = re.search(r"([\w'₀-₉-]+)\.$", before)
            path = owner and owner[1][:1].isupper()
            if not path and word not in fields and not before.endswith(".{"):
                return word
        return names[word]

    return TOKEN.sub(change, text)


def main():
    root = "."
    result, names, fields = table(root)
    if "--list" in sys.argv:
        for old, new in sorted(result.items()):
            print(old, new)
        return
    for path in texts(root):
        with open(path, encoding="utf-8") as f:
            text = f.read()
        new = respelt(text, result, fields, path.endswith(".rt"))
        if new != text:
            with open(path, "w", encoding="utf-8") as f:
                f.write(new)


if __name__ == "__main__":
    main()
