#!/usr/bin/env python3
"""Brings the repository's own definitions, lemmas, fields and variables in .antt files and clauses to snake case, once, after the kit's port.py.

usage: python3 tools/port_names.py      at the top of the repository: rewrites crates/ in place and prints the table of names

A name with a dash or a hump (`heads-after`, `headsAfter`) becomes one of words joined by `_`. Names that a library gives, names of types and modules,
and what Rattle makes keep their spelling. Where a definition and a lemma would fall together, the lemma gets `_lem`.
"""
import collections
import os
import re

SEPARATORS = r"\s(){}\[\].,;:\"|λ"
TOKEN = re.compile(rf"[^{SEPARATORS}]+")
USE = re.compile(r"^[ \t]*(?:pub )?(?:ghost )?use ([^\s;{]+?)(?:\.\{([^}]*)\}|[ \t]+as[ \t]+(\S+?))?;?[ \t]*$", re.M)
COMMENT = re.compile(r"--[^\n]*")


def odd(word):
    return bool(not word[0].isupper() and re.search(r"[a-zA-Z]", word) and re.search(r"[a-z0-9'?₀-₉]-[a-z0-9]|[a-z0-9][A-Z]", word) and re.fullmatch(r"[a-zA-Z0-9_'?₀-₉-]+", word))


def snake(word):
    return re.sub(r"([a-z0-9])([A-Z])", lambda m: m.group(1) + "_" + m.group(2).lower(), word).replace("-", "_")


def files(ending):
    for folder, folders, names in os.walk("crates"):
        folders[:] = sorted(f for f in folders if f not in ("out", "must-fail"))
        for name in sorted(names):
            if name.endswith(ending):
                yield os.path.join(folder, name)


def read(path):
    with open(path, encoding="utf-8") as f:
        return f.read()


def clauses(text):
    """The parts of a .rt file that are antt: `ghost use` lines, and the braces of clauses. As (start, end)."""
    for m in re.finditer(r"^[ \t]*ghost use [^;]*;", text, re.M):
        yield m.start(), m.end()
    for m in re.finditer(r"^[ \t]*(?:requires|ensures)\*?(?: \w+)? \{", text, re.M):
        depth, at = 1, m.end()
        while depth:
            depth += {"{": 1, "}": -1}.get(text[at], 0)
            at += 1
        yield m.end() - 1, at


# Names that were in snake case already and are a definition's new name: they give way, in these files alone, or nowhere where no file has both.
GIVE_WAY = {"same_address": ("crates/pops/proofs/PopSteps.antt",)}
STAY = {"cells_fit", "group_at", "same_kind"}


def table_of(own):
    library, seen = set(), set()
    for path in files(".antt"):
        text = COMMENT.sub("", read(path))
        for m in USE.finditer(text):
            parts = m.group(1).split(".")
            if not (parts[0] == "Rattle" and parts[1] in own) and m.group(2):
                library.update(n.split(" as ")[-1].strip() for n in m.group(2).split(","))
        if not path.endswith("/Proof.antt"):
            seen.update(TOKEN.findall(USE.sub("", text)))
    names = sorted(w for w in seen if odd(w) and w not in library)
    taken = {w for w in seen if not odd(w)} | library
    by_new = collections.defaultdict(list)
    for w in names:
        by_new[snake(w)].append(w)
    table, giving_way = {}, {}
    for new, olds in by_new.items():
        humps = [w for w in olds if "-" not in w]
        for w in olds:
            # A lemma gives way to a definition, and both to a library's name.
            lemma = new in library or ("-" in w and (humps or new in taken))
            table[w] = new + "_lem" if lemma else new
        if humps and new in taken and new not in library and new not in STAY:
            giving_way[new] = new + "_lem"
    return table, giving_way


def turned(text, table):
    def name(m):
        return m.group() if text[: m.start()].endswith("Memᴰ.") else table.get(m.group(), m.group())

    return TOKEN.sub(name, text)


def turned_words(text, table):
    """In prose: names with a hump anywhere, others between backticks."""
    text = re.sub(r"(?<![\w`-])[a-z]\w*[A-Z]\w*(?![\w-])", lambda m: table.get(m.group(), m.group()), text)
    return re.sub(r"`[^`\n]+`", lambda m: turned(m.group().replace("`", " "), table).replace(" ", "`", 1)[:-1] + "`", text)


def main():
    own = set(os.listdir("crates"))
    table, giving_way = table_of(own)
    for path in list(files(".antt")):
        names = dict(table)
        if not path.endswith("/Proof.antt"):
            names.update({w: n for w, n in giving_way.items() if path in GIVE_WAY.get(w, (path,))})
        out = []
        for line in read(path).split("\n"):
            code, dash, comment = line.partition("--")
            out.append(turned(code, names) + dash + turned_words(comment, table))
        write(path, "\n".join(out))
    for path in list(files(".rt")):
        text, out, at = read(path), [], 0
        for start, end in clauses(text):
            out += [prose(text[at:start], table), turned(text[start:end], table)]
            at = end
        write(path, "".join(out + [prose(text[at:], table)]))
    # Pages name definitions too, also those that port.py turned.
    known = {w for path in files(".antt") for w in TOKEN.findall(read(path))}
    for path in ["README.md", *("docs/" + n for n in sorted(os.listdir("docs")) if n.endswith(".md"))]:
        text = read(path)
        words = {w for span in re.findall(r"`([^`\n]+)`", text) for w in TOKEN.findall(span) if odd(w)}
        write(path, turned_words(text, {**{w: snake(w) for w in words if snake(w) in known}, **table}))
    for old, new in sorted({**table, **giving_way}.items()):
        print(old, new)


def prose(text, table):
    return re.sub(r"//[^\n]*", lambda m: turned_words(m.group(), table), text)


def write(path, text):
    if text != read(path):
        with open(path, "w", encoding="utf-8") as f:
            f.write(text)


if __name__ == "__main__":
    main()
