"""What crates.txt says: the crates of this repository in groups, lowest first, with what each stands on."""
import os
import re

HOME = os.path.dirname(os.path.dirname(os.path.realpath(__file__)))

# The groups. Each that has a crate is a comment line of crates.txt, which gives their order, and a heading of docs/ARCHITECTURE.md and
# docs/PROOFS.md.
GROUPS = ["base", "languages", "running", "plans", "watching", "debugging", "tools", "command", "tests"]


class Crate:
    """A line of crates.txt."""

    def __init__(self, name, group, stands_on):
        self.name = name
        self.group = group
        # As listed: crates of the repository and libraries of the kit.
        self.stands_on = stands_on
        # 1 for a crate that stands on no other one of the repository, else one more than the highest of those.
        self.layer = 0

    def folder(self):
        return f"{HOME}/crates/{self.name}"


def read_text(path):
    with open(f"{HOME}/{path}", encoding="utf-8") as file:
        return file.read()


def read_crates():
    """Returns the crates in the order of crates.txt, with their layers, and what is wrong with the file."""
    crates, faults, groups = [], [], []
    for number, line in enumerate(read_text("crates.txt").split("\n"), 1):
        if line.startswith("# ") and line[2:] in GROUPS:
            if line[2:] in groups:
                faults.append(f"crates.txt:{number}: the group {line[2:]} begins twice")
            groups.append(line[2:])
        found = re.match(r"(\w+)[^:#]*:(.*)", line)
        if not found:
            continue
        if not groups:
            faults.append(f"crates.txt:{number}: {found[1]} stands in no group")
        crates.append(Crate(found[1], groups[-1] if groups else GROUPS[0], found[2].split("#")[0].split()))
    faults += layered(crates)
    return crates, faults


def in_layers(crates, group_in_page):
    """Returns crates.txt with each crate behind those that it stands on: its group is that of its row, or else the one that it has, and no lower
    than those of the crates below. Within a group crates stay in their order as far as may be."""
    known, waiting, done = {it.name: it for it in crates}, list(crates), []
    while waiting:
        free = [it for it in waiting if not any(known.get(dep) in waiting for dep in it.stands_on)]
        if not free:
            raise SystemExit(f"crates.txt: {', '.join(it.name for it in waiting)} stand on one another")
        for it in free:
            groups = [group_in_page.get(it.name, it.group)] + [known[dep].group for dep in it.stands_on if dep in known]
            it.group = max(groups, key=GROUPS.index)
            waiting.remove(it)
            done.append(it)
    layered(done)
    lines = read_text("crates.txt").split("\n")
    lines = lines[: next(number for number, it in enumerate(lines) if it[2:] in GROUPS)]
    for group in GROUPS:
        these = behind_each_other([it for it in crates if it.group == group])
        lines += [f"# {group}"] * bool(these) + [f"{it.name}: {' '.join(it.stands_on)}".rstrip() for it in these]
    return "\n".join([*lines, ""])


def behind_each_other(crates):
    """Returns crates of one group, each behind those of them that it stands on."""
    waiting, order = list(crates), []
    while waiting:
        names = {it.name for it in waiting}
        first = next(it for it in waiting if not names & set(it.stands_on))
        waiting.remove(first)
        order.append(first)
    return order


def groups_of(crates):
    """Returns all groups in the order of crates.txt; one that has no crate yet stands before `command`."""
    order = list(dict.fromkeys(it.group for it in crates))
    for group in GROUPS:
        if group not in order:
            order.insert(order.index("command") if "command" in order else len(order), group)
    return order


def layered(crates):
    """Sets the layer of each crate. Returns a fault for each that stands above one on which it stands."""
    faults, above = [], {}
    names = {it.name for it in crates}
    for crate in crates:
        for below in crate.stands_on:
            if below in names and below not in above:
                faults.append(f"crates.txt: {crate.name} stands above {below}, on which it stands")
        crate.layer = 1 + max([above.get(it, 0) for it in crate.stands_on], default=0)
        above[crate.name] = crate.layer
    return faults


def stands_on_all(name, crates):
    """Returns the names of the crate and of all crates of the repository that it stands on, in the order of crates.txt."""
    wanted = {name}
    for crate in reversed(crates):
        if crate.name in wanted:
            wanted.update(crate.stands_on)
    return [it.name for it in crates if it.name in wanted]


def files_of(crate, parts, endings):
    """Returns the paths of the crate's files in these folders, sorted."""
    found = []
    for part in parts:
        for folder, _, names in os.walk(f"{crate.folder()}/{part}"):
            found += [f"{folder}/{it}" for it in names if it.endswith(endings)]
    return sorted(found)
