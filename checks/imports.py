#!/usr/bin/env python3
"""Finds names that a file of a crate imports for its contracts or its proofs and doesn't use.

    checks/imports.py [--fix] [CRATE..]

It reads the `ghost use` lines of .rt files and the `use` lines of .antt files in crates/CRATE/{src,specs,proofs}, of all
crates where none is named. It prints FILE:LINE: NAME for each name that isn't used, and exits with 1 where there are some.
With --fix it removes them from their lines; where none is left the line goes too. A check of the crate tells whether each
was needless: a name that the toolchain needs and no text shows is put back by `rt check --fix-imports`.

What counts as a use: the name as a word of its own (in .rt files within a contract or a ghost item, behind the import's own
braces), or an operator's parts. What doesn't: comments, texts, other imports, what stands behind a dot (`module.name` uses
`module`), and the field of a record that is made or declared.
"""

import re
import sys
from pathlib import Path

ROOT = Path(__file__).resolve().parent.parent
HOLE = "◌"
# What parts words from each other, beside space.
STOPS = r"\s(){}\[\];,⟦⟧\"@"
WORD = re.compile(rf"[^{STOPS}]+")
RT_USE = re.compile(r"^[ \t]*ghost use ([^;]*);[ \t]*\n?", re.M)
ANTT_USE = re.compile(r"^[ \t]*use ([^\s{]+\.\{[^}]*\}|[^\s{]+(?:[ \t]+as[ \t]+\S+)?)[ \t]*\n?", re.M)
RT_REEXPORT = re.compile(r"^[ \t]*pub (?:use|mod) .*$", re.M)
CLAUSE = re.compile(r"\b(?:ensures|requires)\b[ \t\n]*(?:[A-Za-z_][A-Za-z_0-9]*[ \t\n]*)?\{|\bghost[ \t]+[A-Za-z_][A-Za-z_0-9]*[ \t]*[:=]\s*\{")


def blanked(text, spans):
    """The text with these parts as spaces; lines stay lines."""
    out = list(text)
    for begin, end in spans:
        for i in range(begin, end):
            if out[i] != "\n":
                out[i] = " "
    return "".join(out)


def without_comments(text, is_antt):
    """The text with its comments, strings and characters as spaces."""
    if is_antt:
        form = r'\{-.*?-\}|(?<![^\s(){};,])--(?![^\s-])[^\n]*|"(?:\\.|[^"\\])*"'
    else:
        form = r"""/\*.*?\*/|//[^\n]*|b?"(?:\\.|[^"\\])*"|b?'(?:\\[^']*|[^'\\])'"""
    return blanked(text, [m.span() for m in re.finditer(form, text, re.S)])


def end_of_braces(text, begin):
    """Where the braces end that open at `begin`."""
    depth = 0
    for i in range(begin, len(text)):
        if text[i] == "{":
            depth += 1
        elif text[i] == "}":
            depth -= 1
            if depth == 0:
                return i + 1
    return len(text)


def scope_of(text, at):
    """The braces within which an import at `at` stands: where they begin and end."""
    depth = 0
    for i in range(at - 1, -1, -1):
        if text[i] == "}":
            depth += 1
        elif text[i] == "{":
            if depth == 0:
                return i, end_of_braces(text, i)
            depth -= 1
    return 0, len(text)


def ghost_text(text):
    """The contracts and ghost items of Rust text alone; the rest as spaces."""
    kept = []
    at = 0
    while match := CLAUSE.search(text, at):
        end = end_of_braces(text, match.end() - 1)
        kept.append((match.end(), end - 1))
        at = end
    gaps, last = [], 0
    for begin, end in kept:
        gaps.append((last, begin))
        last = end
    gaps.append((last, len(text)))
    return blanked(text, gaps)


def words_of(text):
    """Each word that the text uses, and operators written whole (`◌∙◌`)."""
    found = set()
    if re.search(r"\[\s*\]", text):
        found.add("[]")
    for match in WORD.finditer(text):
        word, begin, end = match.group(), match.start(), match.end()
        # What stands behind a dot is a field, or is named by its module: `x.name`, `(f x).name`.
        if word.startswith(".") and begin > 0 and text[begin - 1] in ")}]⟧":
            continue
        if word in ("|", "λ", "↦"):
            continue
        # The field of a record that is made, and an argument by name.
        before = text[max(0, begin - 80):begin].rstrip()[-1:]
        after = text[end:end + 3].lstrip()[:2]
        if before in ("{", ";") and after[:1] == "=" and after not in ("==",):
            continue
        if HOLE in word or not re.search(r"\w", word):
            found.add(word)
            continue
        head = word.lstrip(".").split(".")[0]
        found.add(head)
        # `λ x.` and `λ x y.` end in a dot; a text may have an operator with no space about it.
        for part in re.split(r"[^\w'’-]+", head):
            if part:
                found.add(part)
    return found


def is_used(name, words):
    if name in words:
        return True
    if HOLE in name:
        parts = [part for part in name.split(HOLE) if part]
        return bool(parts) and all(part in words for part in parts)
    return False


def items_of(inner):
    """The pieces between commas of an import's braces: where each begins and ends, and the name that it gives."""
    out, at = [], 0
    for piece in inner.split(","):
        name = piece.strip()
        if name:
            parts = re.split(r"\s+as\s+", name)
            out.append((at, at + len(piece), parts[-1].strip()))
        at += len(piece) + 1
    return out


def imports_of(text, is_antt):
    """Each import: its span, the part of it that lists names, and these."""
    for match in (ANTT_USE if is_antt else RT_USE).finditer(text):
        path, at = match.group(1), match.start(1)
        if "{" in path:
            begin = at + path.index("{") + 1
            end = at + path.rindex("}")
            yield match.span(), (begin, end), items_of(text[begin:end])
        else:
            name = re.split(r"\s+as\s+", path)[-1].strip().split(".")[-1]
            yield match.span(), None, [(0, 0, name)]


def look(path, fix):
    """The unused names of a file, as (line, name); with `fix` they are removed from it."""
    is_antt = path.suffix == ".antt"
    source = path.read_text(encoding="utf-8")
    text = without_comments(source, is_antt)
    uses = list(imports_of(text, is_antt))
    body = blanked(text, [span for span, _, _ in uses] + [m.span() for m in RT_REEXPORT.finditer(text)])
    ghost = body if is_antt else ghost_text(body)
    found, edits = [], []
    for span, inner, items in uses:
        begin, end = (0, len(text)) if is_antt else scope_of(text, span[0])
        words = words_of(ghost[begin:end])
        dead = [item for item in items if not is_used(item[2], words)]
        if not dead:
            continue
        for at, _, name in dead:
            place = span[0] if inner is None else inner[0] + at
            place += len(source[place:]) - len(source[place:].lstrip())
            found.append((source.count("\n", 0, place) + 1, name))
        if len(dead) == len(items):
            edits.append((span[0], span[1], ""))
        else:
            pieces = [source[inner[0]:inner[1]][a:b].strip() for a, b, name in items if (a, b, name) not in dead]
            joint = ",\n" + re.match(r"\s*", source[inner[0]:inner[1]]).group().lstrip("\n") if "\n" in source[inner[0]:inner[1]] else ", "
            lead = re.match(r"\s*", source[inner[0]:inner[1]]).group()
            tail = re.search(r",?\s*$", source[inner[0]:inner[1]]).group()
            edits.append((inner[0], inner[1], lead + joint.join(pieces) + tail))
    if fix and edits:
        for begin, end, new in sorted(edits, reverse=True):
            source = source[:begin] + new + source[end:]
            if not new:
                # No two empty lines in a row, and none at the front of braces or of the file.
                source = re.sub(r"\n\n\n+\Z", "\n", source)
                head, rest = source[:begin], source[begin:]
                if (head.endswith("\n\n") or head.endswith("{\n") or not head) and rest.startswith("\n"):
                    source = head + rest[1:]
        path.write_text(source, encoding="utf-8")
    return found


def main(words):
    fix = "--fix" in words
    names = [word for word in words if not word.startswith("-")]
    crates = [ROOT / "crates" / name for name in names] or sorted((ROOT / "crates").iterdir())
    count = 0
    for crate in crates:
        for folder in ("src", "specs", "proofs"):
            for path in sorted((crate / folder).rglob("*")):
                if path.suffix in (".rt", ".antt") and path.is_file():
                    for line, name in look(path, fix):
                        print(f"{path.relative_to(ROOT)}:{line}: {name}")
                        count += 1
    return 1 if count else 0


if __name__ == "__main__":
    sys.exit(main(sys.argv[1:]))
