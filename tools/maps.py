#!/usr/bin/env python3
"""Finds where a map of the repository lies.

  tools/maps.py            names each fault, and ends with status 1 where there is one
  tools/maps.py --write    puts the rows of docs/ARCHITECTURE.md and docs/PROOFS.md in order, and writes the layers, the reading list in
                           docs/PROOFS.md and docs/layers.svg
  tools/maps.py --sort     puts the lines of crates.txt in layers, in the groups that the rows of docs/ARCHITECTURE.md have

crates.txt has the crates in groups and layers, lowest first, and each dependency is named in the crate's code, definitions or proofs.
docs/ARCHITECTURE.md has one row for each crate, in the heading of its group and with its layer; docs/PROOFS.md has one row for each.
A row whose crate isn't in crates.txt has `not yet` as its layer, and none in docs/PROOFS.md. The picture and the reading list are as these
tools make them. Crates and their files that README.md and docs/ name are there.
"""
import os
import re
import sys

import crates as listed
import layers
import reading

ROW = re.compile(r"\| (\w+) \|(.*)")
NOT_YET = "not yet"

# Libraries that a crate lists and doesn't name, which go with its next change: without them all above it is proved anew.
NEXT_TIME = {("pd_condition", "pd_turn")}


def unused(crate):
    """Returns the dependencies that no file of the crate names outside comments."""
    text = ""
    for path in listed.files_of(crate, ("src", "specs", "proofs"), (".rt", ".antt")):
        with open(path, encoding="utf-8") as file:
            text += re.sub(r"(?m)^\s*(//|--).*$", "", file.read())
    return [it for it in crate.stands_on if (crate.name, it) not in NEXT_TIME and not re.search(rf"\b{it}\b", text)]


def rows_of(path):
    """Returns the rows of the page that begin with a crate's name: line number, group, name, and what follows the name."""
    rows, group = [], ""
    for number, line in enumerate(listed.read_text(path).split("\n"), 1):
        heading = re.match(r"#+ (.*)", line)
        if heading:
            group = heading[1] if heading[1] in listed.GROUPS else ""
        row = ROW.match(line)
        if group and row and row[1] != "crate":
            rows.append((number, group, row[1], row[2].strip()))
    return rows


def faults_of_rows(path, crates, has_layers):
    """Returns what is wrong with the page's rows of crates."""
    faults, seen, known = [], [], {it.name: it for it in crates}
    for number, group, name, rest in rows_of(path):
        here = f"{path}:{number}: {name}"
        layer = rest.split("|")[0].strip() if has_layers else ""
        if name in seen:
            faults.append(f"{here} has a second row")
        seen.append(name)
        if name not in known:
            if layer != NOT_YET:
                faults.append(f"{here} is no crate of crates.txt")
        elif group != known[name].group:
            faults.append(f"{here} stands in {group}, and in crates.txt in {known[name].group}")
        elif has_layers and layer != str(known[name].layer):
            faults.append(f"{here} has the layer {layer}, and its least is {known[name].layer}")
    faults += [f"{path}: no row for {it.name}" for it in crates if it.name not in seen]
    if not faults and [it for it in seen if it in known] != [it.name for it in crates]:
        faults.append(f"{path}: the rows aren't in the order of crates.txt")
    return faults


def faults_of_names(crates):
    """Returns the crates and files of crates that a document names and that aren't there."""
    known = {it.name for it in crates} | {name for _, _, name, _ in rows_of("docs/ARCHITECTURE.md")}
    faults = []
    for path in ["README.md", *(f"docs/{it}" for it in sorted(os.listdir(f"{listed.HOME}/docs")) if it.endswith(".md"))]:
        text = listed.read_text(path)
        names = sorted(set(re.findall(r"\bpd_\w+\b", text)) - known)
        files = sorted(set(re.findall(r"\b(?:crates/)?([a-z]\w*/(?:specs|src|proofs|must-fail)/[\w/]+\.\w+)", text)))
        faults += [f"{path} names {it}, which is no crate" for it in names]
        faults += [f"{path} names {it}, which isn't there" for it in files if not os.path.isfile(f"{listed.HOME}/crates/{it}")]
    return faults


def in_order(text, crates, has_layers):
    """Returns the page with its groups and rows in the order of crates.txt, and with the layer of each crate in its row."""
    place = {it.name: number for number, it in enumerate(crates)}
    group_of = {it.name: it.group for it in crates}
    pieces = re.split(r"(?m)^(?=#+ )", text)
    sections = {it.split("\n")[0].lstrip("# "): it for it in pieces}
    sections = {group: it for group, it in sections.items() if group in listed.GROUPS}
    rows = {group: [] for group in sections}
    for group, section in sections.items():
        for line in section.split("\n"):
            row = ROW.match(line)
            if row and row[1] != "crate":
                rows[group_of.get(row[1], group)].append(with_layer(line, crates) if has_layers else line)
    first = next(number for number, it in enumerate(pieces) if it in sections.values())
    others = [it for it in pieces if it not in sections.values()]
    for group in listed.groups_of(crates):
        if group in sections:
            these = sorted(rows[group], key=lambda it: place.get(ROW.match(it)[1], len(crates)))
            others.insert(first, with_rows(sections[group], these))
            first += 1
    return "".join(others)


def with_layer(line, crates):
    layer = {it.name: str(it.layer) for it in crates}
    return re.sub(r"^\| (\w+) \| [^|]* \|", lambda it: f"| {it[1]} | {layer.get(it[1], NOT_YET)} |", line)


def with_rows(section, rows):
    """Returns the section with these rows in the place of its own, under the head of its table."""
    lines = section.split("\n")
    head = next(number for number, it in enumerate(lines) if it.startswith("|---"))
    behind = [it for it in lines[head + 1 :] if not it.startswith("| ")]
    return "\n".join([*lines[: head + 1], *rows, *behind])


def written(crates):
    """Returns what the tools make: the text of each file by its path."""
    pages = {"docs/layers.svg": layers.picture(crates)}
    pages["docs/PROOFS.md"] = reading.with_list(listed.read_text("docs/PROOFS.md"), crates)
    return pages


def faults_of(crates):
    """Returns all that is wrong but with crates.txt's order."""
    faults = [f"crates.txt: {it.name} never names {dep}" for it in crates for dep in unused(it)]
    faults += faults_of_rows("docs/ARCHITECTURE.md", crates, has_layers=True)
    faults += faults_of_rows("docs/PROOFS.md", crates, has_layers=False)
    faults += faults_of_names(crates)
    for path, text in written(crates).items():
        if listed.read_text(path) != text:
            faults.append(f"{path} isn't what tools/maps.py --write makes of it")
    return faults


def write(crates):
    for path, has_layers in (("docs/ARCHITECTURE.md", True), ("docs/PROOFS.md", False)):
        put(path, in_order(listed.read_text(path), crates, has_layers))
    for path, text in written(crates).items():
        put(path, text)


def put(path, text):
    with open(f"{listed.HOME}/{path}", "w", encoding="utf-8") as file:
        file.write(text)


def main(words):
    if words not in ([], ["--write"], ["--sort"]):
        print(__doc__.strip(), file=sys.stderr)
        return 2
    crates, faults = listed.read_crates()
    if words == ["--sort"]:
        put("crates.txt", listed.in_layers(crates, {name: group for _, group, name, _ in rows_of("docs/ARCHITECTURE.md")}))
        return 0
    # Where crates.txt isn't in layers, nothing else can be told.
    if not faults:
        if words:
            write(crates)
        faults = faults_of(crates)
    for it in faults:
        print(f"maps: {it}")
    print(f"maps: crates {len(crates)}, layers {max(it.layer for it in crates)}, faults {len(faults)}")
    return 1 if faults else 0


if __name__ == "__main__":
    sys.exit(main(sys.argv[1:]))
