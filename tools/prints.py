#!/usr/bin/env python3
"""Tries what the documents and demo/ say that polydbg prints.

  tools/prints.py PROGRAM            names each difference, and ends with status 1 where there is one
  tools/prints.py PROGRAM --write    writes what is printed into demo/*.txt and into the documents

demo/NAME.txt has what `run` prints of the plan demo/NAME, or what `trace` prints of the source demo/NAME. Each plan and source of demo/
has such a file or is named by a plan that has one. In README.md and docs/ a block is tried whose first line begins with `$ `: each such
line is a command, and what follows is what it prints, messages included. Commands run at the top of the repository, and `./polydbg` is
the program with what the script adds to its messages. In both `…` stands for any characters, and alone on a line for any lines: so what differs from run
to run can be left out. A text that is met so is kept as it is.
"""
import difflib
import os
import re
import subprocess
import sys
import tempfile

import crates as listed

BLOCK = re.compile(r"(?ms)^```\n(\$ .*?)^```$")

# Stands for the script ./polydbg: the same but for the building and the usage.
STAND_IN = """#!/usr/bin/env bash
said=$(mktemp)
'{program}' "$@" 2>"$said"
status=$?
cat "$said" >&2
case "$status" in 2 | 3 | 4 | 8) python3 '{home}/tools/explain.py' "$said" "$@" >&2 ;; esac
rm -f "$said"
exit "$status"
"""


def is_met(said, text):
    """Tells whether what is printed is what was said, where `…` stands for anything."""
    if "…" not in said:
        return said == text
    lines = ["(?:.*\n)*" if line == "…\n" else ".*".join(re.escape(it) for it in line.split("…")) for line in said.splitlines(keepends=True)]
    return re.fullmatch("".join(lines), text) is not None


def printed(commands, room):
    """Returns what a terminal shows of the commands, one after the other."""
    lines = ["status=0"]
    for it in commands:
        command = re.sub(r"(?<!\S)\./polydbg(?!\S)", f"{room}/polydbg", it)
        quoted = it.replace("'", "'\\''")
        lines += [f"printf '%s\\n' '$ {quoted}'", "(exit $status)", command, "status=$?"]
    ran = subprocess.run(["bash"], input="\n".join(lines).encode(), cwd=listed.HOME, stdout=subprocess.PIPE, stderr=subprocess.STDOUT)
    return ran.stdout.decode(errors="replace")


def pages():
    """Returns the documents whose blocks are tried."""
    docs = [f"docs/{it}" for it in sorted(os.listdir(f"{listed.HOME}/docs")) if it.endswith(".md")]
    return ["README.md", *docs]


def with_prints(text, room):
    """Returns the document with what its commands print."""

    def block(found):
        commands = [it[2:] for it in found[1].split("\n") if it.startswith("$ ")]
        text = printed(commands, room)
        return f"```\n{found[1] if is_met(found[1], text) else text}```"

    return BLOCK.sub(block, text)


def demos():
    """Returns the plans and sources of demo/ with a stored print, and those that have none and no such plan names."""
    names = sorted(os.listdir(f"{listed.HOME}/demo"))
    stored = [it[:-4] for it in names if it.endswith(".txt")]
    plans = "".join(listed.read_text(f"demo/{it}") for it in stored if it.endswith(".json"))
    others = [it for it in names if not it.endswith(".txt") and it not in stored and f'"demo/{it}"' not in plans]
    return stored, others


def print_of(name, room):
    """Returns what is printed of a demo: what its stored print says where that is met."""
    command = "run" if name.endswith(".json") else "trace"
    ran = subprocess.run([f"{room}/polydbg", command, f"demo/{name}"], cwd=listed.HOME, stdout=subprocess.PIPE, stderr=subprocess.STDOUT)
    text = ran.stdout.decode(errors="replace")
    said = listed.read_text(f"demo/{name}.txt")
    return said if is_met(said, text) else text


def wanted(room):
    """Returns each file with the text that it is to have."""
    texts = {it: with_prints(listed.read_text(it), room) for it in pages()}
    texts.update({f"demo/{it}.txt": print_of(it, room) for it in demos()[0]})
    return texts


def main(words):
    if len(words) not in (1, 2) or words[1:] not in ([], ["--write"]):
        print(__doc__.strip(), file=sys.stderr)
        return 2
    with tempfile.TemporaryDirectory() as room:
        with open(f"{room}/polydbg", "w", encoding="utf-8") as file:
            file.write(STAND_IN.format(program=os.path.abspath(words[0]), home=listed.HOME))
        os.chmod(f"{room}/polydbg", 0o755)
        texts = wanted(room)
    faults = 0
    for path, text in texts.items():
        said = listed.read_text(path)
        if said == text:
            continue
        if words[1:]:
            with open(f"{listed.HOME}/{path}", "w", encoding="utf-8") as file:
                file.write(text)
            continue
        faults += 1
        print(f"prints: {path} says what isn't printed:")
        print("\n".join(difflib.unified_diff(said.split("\n"), text.split("\n"), "said", "printed", n=1, lineterm="")))
    for it in demos()[1]:
        faults += 1
        print(f"prints: demo/{it} has no demo/{it}.txt, and no plan names it")
    blocks = sum(len(BLOCK.findall(listed.read_text(it))) for it in pages())
    print(f"prints: demos {len(demos()[0])}, blocks of the documents {blocks}, faults {faults}")
    return 1 if faults else 0


if __name__ == "__main__":
    sys.exit(main(sys.argv[1:]))
