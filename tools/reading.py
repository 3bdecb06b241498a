#!/usr/bin/env python3
"""Lists what must be believed of the top call: the definitions that its contract stands on, file by file, in the order to read them.

  tools/reading.py         prints the list, and the number of its files and lines

It begins with the contracts of `pd_top::run`, of its answer's status and message, and of what stands outside, and follows names: a definition that is
named in one that is needed is needed. A variable that has the name of a definition counts as that definition, so the list may be longer
than what is needed, and is never shorter. Types of the code that definitions name are listed by their files, and aren't counted.
"""
import os
import re

import crates as listed

# The contract of the top call, the status and message of its answer, and the traits that it speaks of.
TOP = "crates/pd_top/src/top.rt"
TOP_CALL = re.compile(r"(?s)\npub fn run<.*?\n\{")
BESIDE = ["crates/pd_top/src/outcome.rt", "crates/pd_outside/src/library.rt", "crates/pd_outside/src/sink.rt"]

IMPORT = re.compile(r"(?m)^\s*(?:pub |ghost )*use Rattle\.(\w+)\.specs\.([\w.]+?)(?:\.\{([^}]*)\}| as (\w+))?;?$")
BEGINS = re.compile(r"(?:abbrev|unfoldable|pub|data|record|mutual|module)\b")
DEFINES = re.compile(r"(?m)^ *(?:(?:abbrev|unfoldable) )?(?:pub )?(?:record |data )?(\S+) (?:[({].* )?: ")
TOGETHER = re.compile(r"(?m)^  pub (?:record |data )?(\S+) (?:[({].* )?: ")
NAME = re.compile(r"[\w']+|[^\w\s(){}\[\];,.'\"]+")

START = "<!-- the reading list: made by tools/maps.py --write -->"
END = "<!-- the end of the reading list -->"


class Part:
    """A definition, or several that are defined together, with the comment before it."""

    def __init__(self, path, first, lines):
        self.path, self.first, self.lines = path, first, lines
        code = "\n".join(it for it in lines if not it.lstrip().startswith("--"))
        self.words = set(NAME.findall(code))
        self.dotted = re.findall(r"\b(\w+)\.([\w']+)", code)
        # With fields and constructors. An operator goes by its sign.
        self.defines = [plain(it) for it in DEFINES.findall(code)]
        are_many = re.match(r"(abbrev )?(mutual|module)", code)
        self.names = TOGETHER.findall(code) if are_many else DEFINES.findall(code)[:1]


def plain(name):
    return name.replace("◌", "")


class Page:
    """A file of definitions, or of code with contracts."""

    def __init__(self, path, text=None):
        self.path = path
        self.text = listed.read_text(path)
        self.parts = parts_of(path, self.text if text is None else text)
        self.by_name = {name: it for it in self.parts for name in it.defines}
        # The file and the name there of each imported name, the files that are imported under another name, and those of declared types.
        self.imported, self.aliases, self.types = {}, {}, {}
        for crate, dotted, names, alias in IMPORT.findall(self.text):
            where = file_of(crate, dotted)
            if not where:
                continue
            if alias:
                self.aliases[alias] = where
            for name in names.split(","):
                first, _, other = name.strip().partition(" as ")
                kept = self.types if where.endswith(".rt") else self.imported
                kept[plain(other or first)] = (where, plain(first))


def parts_of(path, text):
    """Returns the definitions of a file of definitions; the text of any other is one part."""
    lines = text.split("\n")
    if not path.endswith(".antt"):
        return [Part(path, 1, lines)]
    starts = [at for at, line in enumerate(lines) if BEGINS.match(line)]
    for number, at in enumerate(starts):
        while at > 0 and lines[at - 1].startswith("--") and not lines[at - 1].startswith("-- ----"):
            at -= 1
        starts[number] = at
    return [Part(path, at + 1, trimmed(lines[at:end])) for at, end in zip(starts, [*starts[1:], len(lines)])]


def trimmed(lines):
    """Leaves out blank lines and headings at the end."""
    while lines and (not lines[-1] or lines[-1].startswith("--")):
        lines = lines[:-1]
    return lines


def file_of(crate, dotted):
    """Returns the file that an import names, or of a declared type the file of its code, or None where it is none of this repository."""
    folder, ending, names = "specs", ".antt", dotted.split(".")
    if names[0] == "declared":
        folder, ending, names = "src", ".rt", names[1:]
    for length in range(len(names), 0, -1):
        path = f"crates/{crate}/{folder}/{'/'.join(names[:length])}{ending}"
        if os.path.isfile(f"{listed.HOME}/{path}"):
            return path
    lib = f"crates/{crate}/src/lib.rt"
    return lib if folder == "src" and os.path.isfile(f"{listed.HOME}/{lib}") else None


class Needed:
    """The definitions that are needed, and the files of the types that they name."""

    def __init__(self):
        self.pages, self.parts, self.types = {}, set(), set()

    def page(self, path):
        if path not in self.pages:
            self.pages[path] = Page(path)
        return self.pages[path]

    def add(self, page, part):
        waiting = [(page, part)]
        while waiting:
            page, part = waiting.pop()
            if part in self.parts:
                continue
            self.parts.add(part)
            for word in part.words:
                waiting += self.found(page, word)
                if word in page.types:
                    self.types.add(page.types[word][0])
            for alias, name in part.dotted:
                where = page.aliases.get(alias)
                if where and where.endswith(".rt"):
                    self.types.add(where)
                elif where:
                    waiting += self.found(self.page(where), name)

    def found(self, page, word):
        """Returns the definition that the word names there, in its page."""
        if word in page.by_name:
            return [(page, page.by_name[word])]
        where, name = page.imported.get(word, (None, None))
        if where and name in self.page(where).by_name:
            return [(self.page(where), self.page(where).by_name[name])]
        return []


def needed():
    found = Needed()
    top = Page(TOP, TOP_CALL.search(listed.read_text(TOP))[0])
    for page in [top, *map(Page, BESIDE)]:
        for part in page.parts:
            found.add(page, part)
    return found


def says(path):
    """Returns the first sentence of what the file says that it defines."""
    head = ""
    for line in listed.read_text(path).split("\n"):
        if not line.startswith("-- "):
            break
        head += f" {line[3:]}"
    head = re.sub(r"^ (Definition, which public contracts cite|Definition)[.:] ", "", head)
    return head.split(". ")[0].strip(" .").replace("|", "\\|")


def table(crates):
    """Returns the reading list as a table, after one line that counts it."""
    found, place = needed(), {it.name: number for number, it in enumerate(crates)}
    by_file = {}
    for part in found.parts:
        by_file.setdefault(part.path, []).append(part)
    order = sorted((it for it in by_file if it.endswith(".antt")), key=lambda it: (place[it.split("/")[1]], imports_behind(it, by_file), it))
    rows, sum_of_lines = [], 0
    for path in order:
        parts = sorted(by_file[path], key=lambda it: it.first)
        lines = sum(len(it.lines) for it in parts)
        sum_of_lines += lines
        rows.append(f"| {path[7:]} | {lines} | {says(path)}{which(parts, found.page(path).parts)} |")
    types = ", ".join(it[7:] for it in sorted(found.types, key=lambda it: (place[it.split("/")[1]], it)))
    count = f"{sum_of_lines:,} lines of definitions in {len(order)} files, of {whole(crates):,} lines in all `specs/`:"
    return [count, "", "| file | lines | what it defines |", "|---|---|---|", *rows, "", f"Types that they name are declared in {types}."]


def which(parts, every):
    """Returns which definitions of a file are needed, where not all are."""
    these = [f"`{name}`" for it in parts for name in it.names]
    others = [f"`{name}`" for it in every if it not in parts for name in it.names]
    if not others:
        return ""
    return f"; only {', '.join(these)}" if len(these) <= len(others) else f"; all but {', '.join(others)}"


def imports_behind(path, by_file):
    """Returns how deep the file stands over other needed ones of its crate, so that a file comes behind those that it imports."""
    crate = path.split("/")[1]
    under = {it for it, _ in Page(path).imported.values() if it != path and it in by_file and it.split("/")[1] == crate}
    return 1 + max([imports_behind(it, by_file) for it in under], default=0)


def whole(crates):
    """Returns the number of lines in all files of definitions and twins."""
    files = [it for crate in crates for it in listed.files_of(crate, ("specs",), (".antt",))]
    return sum(listed.read_text(it[len(listed.HOME) + 1 :]).count("\n") for it in files)


def with_list(text, crates):
    """Returns the page with the reading list between its two marks."""
    before, _, rest = text.partition(START)
    _, _, after = rest.partition(END)
    return "\n".join([before + START, *table(crates), END]) + after


if __name__ == "__main__":
    print("\n".join(table(listed.read_crates()[0])))
