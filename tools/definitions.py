#!/usr/bin/env python3
"""Which definitions a contract or a definition rests on, and how many lines they are.

    tools/definitions.py                    the tables of the documents, as they have to be
    tools/definitions.py --check            are the tables of the documents true? (status 1 where one isn't)
    tools/definitions.py --write            writes the tables anew; the words of each row are kept
    tools/definitions.py --names ROOT       the definitions that ROOT rests on, a line each

A table stands in a document behind a line `<!-- definitions: ROOT .. -->`. A root is a public
function in code, as ath_session/src/top.rt:athena, whose contract is meant, or one clause of it, as
ath_session/src/top.rt:athena#report, or a definition, as
ath_session/specs/Theorems.antt:AreJustified. A definition rests on each definition that its text
names and its file imports or has itself. Types and constants of the code are listed by file.
"""
import os
import re
import sys

TOP = os.path.dirname(os.path.dirname(os.path.abspath(__file__)))
DOCUMENTS = ["docs/ARCHITECTURE.md", "docs/THEOREM.md"]
WORD = re.compile(r"[^\s(){}\[\].,;:→λ×∷⊎]+")
USE = re.compile(r"^(?:ghost )?use Rattle\.([\w.-]+?)\.\{([^}]*)\}")
ALIAS = re.compile(r"^(?:ghost )?use Rattle\.([\w.-]+) as (\w+)")
STARTS = re.compile(r"^(abbrev|unfoldable|pub|mutual|opaque|data|record)\b")


class Chunk:
    """A definition with the comment above it: its place, the names that it gives, its words."""

    def __init__(self, path, first):
        self.path, self.first, self.lines = path, first, []
        self.names, self.words = set(), set()


def words_of(line):
    """The words of a line; one that is qualified by an alias is kept whole besides."""
    return set(WORD.findall(line)) | set(re.findall(r"\b\w+\.\w+", line))


def names_of(lines):
    """The names that a definition's lines give: its own, those of constructors and of fields."""
    found = set()
    for line in lines:
        head = re.match(r"^\s*(?:abbrev |unfoldable )?(?:pub )?(?:record |data |mod )?([^\s(){}:]+)(?=[\s:(])", line)
        if head and (":" in line or re.match(r"^\s*(pub )?(record|data)\b", line)):
            found.add(head.group(1))
    return found - {"abbrev", "unfoldable", "pub", "mutual", "where", "--"}


def imported(line, imports):
    """Notes what a line imports: for each name its module and the name there, for an alias its module."""
    use, alias = USE.match(line), ALIAS.match(line)
    if use:
        for name in use.group(2).split(","):
            parts = name.split()
            if parts:
                imports[parts[-1]] = (use.group(1), parts[0])
    if alias:
        imports[alias.group(2)] = (alias.group(1), None)
    return bool(use or alias)


def split(path):
    """The definitions of a file, and where the names that it imports come from."""
    chunks, imports, waiting = [], {}, []
    with open(os.path.join(TOP, path), encoding="utf-8") as file:
        for number, line in enumerate(file, 1):
            line = line.rstrip("\n")
            if imported(line, imports):
                waiting = []
            elif line.startswith("--"):
                waiting.append(line)
            elif STARTS.match(line):
                chunk = Chunk(path, number - len(waiting))
                chunk.lines = waiting + [line]
                chunks.append(chunk)
                waiting = []
            elif not line:
                waiting = []
            elif chunks:
                chunks[-1].lines += waiting + [line]
                waiting = []
    for chunk in chunks:
        code = [l.split("-- ")[0] for l in chunk.lines if not l.startswith("--")]
        chunk.names = names_of(code)
        for line in code:
            chunk.words |= words_of(line)
    return chunks, imports


def load():
    files = {}
    for crate in sorted(os.listdir(os.path.join(TOP, "crates"))):
        specs = os.path.join("crates", crate, "specs")
        for folder, _, names in os.walk(os.path.join(TOP, specs)):
            for name in sorted(names):
                if name.endswith(".antt"):
                    path = os.path.relpath(os.path.join(folder, name), TOP)
                    files[path] = split(path)
    return files


def file_of(module):
    """The file of a module, as ath_terms.specs.Tree, or None where it is of the code or the kit."""
    parts = module.split(".")
    if len(parts) < 3 or parts[1] != "specs" or parts[2] == "declared":
        return None
    for end in range(len(parts), 2, -1):
        path = os.path.join("crates", *parts[:end]) + ".antt"
        if os.path.exists(os.path.join(TOP, path)):
            return path
    return None


def code_of(module):
    """The file of the code that declares a type, as ath_sorts.specs.declared.sorts.Sym, with its name."""
    parts = module.split(".")
    if len(parts) < 4 or parts[1:3] != ["specs", "declared"]:
        return None
    for end in range(len(parts) - 1, 2, -1):
        for path in (os.path.join("crates", parts[0], "src", *parts[3:end]) + ".rt",
                     os.path.join("crates", parts[0], "src", *parts[3:end], "mod.rt")):
            if os.path.isfile(os.path.join(TOP, path)) and end < len(parts):
                return path, parts[end]
    path = os.path.join("crates", parts[0], "src", "lib.rt")
    return path, parts[3]


def contract_words(path, function):
    """The words of the contract of a public function, or of one clause, and the imports of its file."""
    function, _, clause = function.partition("#")
    with open(os.path.join(TOP, path), encoding="utf-8") as file:
        text = file.read()
    imports = {}
    for line in text.split("\n"):
        imported(line, imports)
    begin = re.search(r"fn %s\b" % re.escape(function), text)
    if not begin:
        sys.exit("definitions: %s has no function %s" % (path, function))
    clauses = text[begin.start():].split("\n{", 1)[0]
    clauses = "\n".join(l for l in clauses.split("\n") if re.match(r"\s*(ensures|requires) %s" % (clause and clause + " "), l))
    return words_of(clauses), imports


def closure(roots, files):
    """The definitions that the roots rest on, and the code's types that these name."""
    needed, types, todo = {}, set(), []

    def seek(word, imports, path):
        if path in files:
            for chunk in files[path][0]:
                if word in chunk.names:
                    todo.append(chunk)
                    return
        alias, dot, inner = word.partition(".")
        module, name = imports.get(alias if dot else word, (None, None))
        if module is None or (dot and name is not None):
            return
        name = inner if dot else name
        target = file_of(module)
        if target:
            todo.extend(chunk for chunk in files[target][0] if name in chunk.names)
        elif code_of(module):
            types.add(code_of(module))

    for root in roots:
        path, name = root.rsplit(":", 1)
        path = os.path.join("crates", path)
        if path.endswith(".rt"):
            words, imports = contract_words(path, name)
            for word in words:
                seek(word, imports, path)
        else:
            before = len(todo)
            seek(name, {}, path)
            if len(todo) == before:
                sys.exit("definitions: %s has no definition %s" % (path, name))
    while todo:
        chunk = todo.pop()
        key = (chunk.path, chunk.first)
        if key in needed:
            continue
        needed[key] = chunk
        for word in chunk.words:
            seek(word, files[chunk.path][1], chunk.path)
    return needed, types


def by_file(needed):
    table = {}
    for chunk in needed.values():
        table[chunk.path] = table.get(chunk.path, 0) + len(chunk.lines)
    return table


def length(path):
    with open(os.path.join(TOP, path), encoding="utf-8") as file:
        return len(file.readlines())


def title(path):
    with open(os.path.join(TOP, path), encoding="utf-8") as file:
        first = file.readline().strip().lstrip("-/! ").strip()
    first = first.split(". ")[0].rstrip(".")
    return first[:1].lower() + first[1:]


def rows(roots, files, old):
    """The rows of a table: in the order of the old one, new files behind it."""
    needed, types = closure(roots, files)
    table = by_file(needed)
    order = [p for p in old if p in table] + sorted(p for p in table if p not in old)
    lines = ["", "| file in `crates/` | what it defines | code that does it | lines |", "|---|---|---|---|"]
    for path in order:
        words, code = old.get(path, ("", ""))
        lines.append("| `%s` | %s | %s | %d |" % (path[len("crates/"):], words or title(path), code, table[path]))
    lines.append("| %d files, of %d lines with imports and all else | | | %d |" % (len(order), sum(map(length, order)), sum(table.values())))
    named = {}
    for path, name in types:
        named.setdefault(path, set()).add(name)
    lines.append("")
    lines.append("They name these types of the code: " + "; ".join(
        "%s in `%s`" % (", ".join("`%s`" % n for n in sorted(named[p])), p[len("crates/"):])
        for p in sorted(named)) + ".")
    lines.append("")
    return lines


def old_rows(lines):
    old = {}
    for line in lines:
        row = re.match(r"\| `([^`]+)` \| (.*?) \| (.*?) ?\| \d+ \|", line)
        if row:
            old["crates/" + row.group(1)] = (row.group(2), row.group(3))
    return old


def tables(path, files):
    """A document as it is and as it has to be."""
    with open(os.path.join(TOP, path), encoding="utf-8") as file:
        text = file.read().split("\n")
    made, at = [], 0
    while at < len(text):
        made.append(text[at])
        mark = re.match(r"<!-- definitions: (.*) -->", text[at])
        at += 1
        if mark:
            end = at
            while text[end] != "<!-- end -->":
                end += 1
            made += rows(mark.group(1).split(), files, old_rows(text[at:end]))
            at = end
    return text, made


def main():
    files = load()
    if sys.argv[1:2] == ["--names"]:
        needed, types = closure(sys.argv[2:], files)
        for path, first in sorted(needed):
            print("%s:%d: %s" % (path, first, " ".join(sorted(needed[path, first].names))))
        print("%d definitions, %d lines" % (len(needed), sum(len(c.lines) for c in needed.values())))
        return
    stale = False
    for document in DOCUMENTS:
        if not os.path.exists(os.path.join(TOP, document)):
            continue
        text, made = tables(document, files)
        if sys.argv[1:] == ["--write"]:
            with open(os.path.join(TOP, document), "w", encoding="utf-8") as file:
                file.write("\n".join(made))
        elif sys.argv[1:] == ["--check"]:
            if text != made:
                stale = True
                print("%s: its table of definitions isn't true" % document)
                for line in made:
                    if line not in text:
                        print("  is:  " + line)
                for line in text:
                    if line not in made:
                        print("  had: " + line)
        else:
            print("\n".join(made))
    sys.exit(1 if stale else 0)


if __name__ == "__main__":
    main()
