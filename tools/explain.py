#!/usr/bin/env python3
"""Shows where a file is that polydbg refuses: FILE:LINE:COLUMN and the line, with a mark under the place and what is wrong there.

  tools/explain.py FILE WORD..    the file has what polydbg said, and the words are those that it was given

The script ./polydbg calls it after the program's own message. Where it finds nothing to show, it prints nothing.
"""
import bisect
import json
import os
import re
import sys
import unicodedata

# What is wrong at a place of a source, by the rule.
OF_SOURCES = {
    "NotUtf8": "this isn't UTF-8",
    "BadByte": "this begins no token",
    "OpenText": "this text isn't closed on its line",
    "OpenComment": "this comment isn't closed",
    "Unexpected": "no program goes on like this",
    "LiteralTooLarge": "this is more than 9223372036854775807",
    "TooDeep": "this is the 201st that is open",
    "TooManyNodes": "the sources have more than 65,536 nodes",
    "Doubled": "this block has declared the name already",
    "Undeclared": "nothing of this name is declared here",
    "NotAssignable": "this is no variable",
    "NotAProcedure": "this is no procedure",
    "NotAValue": "a procedure has no value",
}
# What is wrong at an export or a context of the plan, and where the plan has it.
OF_EXPORTS = {
    "DoubledExport": ("exports", "an earlier export has this name"),
    "NoSuchItem": ("exports", "the source has no such item"),
    "NoSuchEntry": ("contexts", "the source has no such item to start at"),
}
# What is wrong at a value of the plan.
OF_PLANS = {
    "Missing": "this has no member `{}`",
    "WrongShape": "a value of another kind is wanted",
    "OutOfRange": "this, or its length, is out of range",
    "UnknownWord": "none of the words that may stand here",
    "UnknownMember": "this has a member that it can't have",
    "NoSuch": "the plan has none of this number",
    "NotAnObserver": "the binding of this number is no observer",
    "BadCondition": "this is no condition",
}
# What is wrong with a binding of the plan, by the command that asks for it.
OF_BINDINGS = {
    "coverage": "this is no observer",
    "calltree": 'an observer of {"tags": ["Root"]} is wanted, attached before the run, that nothing disposes or disables',
}
# How deep a plan may nest, and how much of a line is shown before and after the place.
DEEPEST = 127
AROUND = 70

STRING = re.compile(rb'"(?:[^"\\\x00-\x1f]|\\(?:["\\/bfnrt]|u[0-9a-fA-F]{4}))*"')
NUMBER = re.compile(rb"-?(?:0|[1-9][0-9]*)(?:\.[0-9]+)?(?:[eE][+-]?[0-9]+)?")
BLANK = re.compile(rb"[ \t\r\n]*")


class NotJson(Exception):
    """The place where a text stops being JSON, and what is wanted there."""


def pointed(name, text, at, why):
    """Returns the line that has the byte `at`, after its place, and under it a mark with what is wrong."""
    starts = [0] + [it.end() for it in re.finditer(rb"\r\n|\r|\n", text)]
    number = bisect.bisect_right(starts, at)
    first = starts[number - 1]
    line = re.split(rb"[\r\n]", text[first:], maxsplit=1)[0]
    before, behind = shown(line[: at - first]), shown(line[at - first :])
    why = f"{why}; the text ends" if at == len(text) else why
    before = before if len(before) <= AROUND else f"..{before[-AROUND:]}"
    behind = behind if len(behind) <= AROUND else f"{behind[:AROUND]}.."
    label = f"{name}:{number}:{at - first + 1}: "
    blanks = "".join("\t" if it == "\t" else " " * width(it) for it in label + before)
    return f"{label}{before}{behind}\n{blanks}^ {why}"


def shown(piece):
    """Returns the bytes as text in which nothing but tabs moves a terminal."""
    return "".join(it if it.isprintable() or it == "\t" else "\ufffd" for it in piece.decode(errors="replace"))


def width(character):
    """Returns how many columns of a terminal the character takes."""
    if unicodedata.combining(character):
        return 0
    return 2 if unicodedata.east_asian_width(character) in "WF" else 1


def skipped(text, at):
    return BLANK.match(text, at).end()


def value(text, at, depth):
    """Reads a value. Returns where it begins, its members or entries, and where it ends."""
    if depth > DEEPEST and text[at : at + 1] in (b"[", b"{"):
        raise NotJson(at, f"this nests deeper than {DEEPEST}")
    if text[at : at + 1] == b"[":
        return entries(text, at, depth)
    if text[at : at + 1] == b"{":
        return members(text, at, depth)
    for word in (b"true", b"false", b"null"):
        if text.startswith(word, at):
            return at, None, at + len(word)
    found = STRING.match(text, at) or NUMBER.match(text, at)
    if not found:
        raise NotJson(at, "a value is wanted here")
    return at, None, found.end()


def entries(text, at, depth):
    found, begins = [], at
    at = skipped(text, at + 1)
    if text[at : at + 1] == b"]":
        return begins, found, at + 1
    while True:
        found.append(value(text, at, depth + 1))
        at = skipped(text, found[-1][2])
        if text[at : at + 1] == b"]":
            return begins, found, at + 1
        if text[at : at + 1] != b",":
            raise NotJson(at, "`,` or `]` is wanted here")
        at = skipped(text, at + 1)


def members(text, at, depth):
    found, begins = {}, at
    at = skipped(text, at + 1)
    if text[at : at + 1] == b"}":
        return begins, found, at + 1
    while True:
        name = STRING.match(text, at)
        if not name:
            raise NotJson(at, "a member's name in quotes is wanted here")
        at = skipped(text, name.end())
        if text[at : at + 1] != b":":
            raise NotJson(at, "`:` is wanted here")
        it = value(text, skipped(text, at + 1), depth + 1)
        # Of a member that is given twice the last counts.
        found[json.loads(name[0])] = it
        at = skipped(text, it[2])
        if text[at : at + 1] == b"}":
            return begins, found, at + 1
        if text[at : at + 1] != b",":
            raise NotJson(at, "`,` or `}` is wanted here")
        at = skipped(text, at + 1)


def read_plan(text):
    """Reads a whole plan. Returns its outermost value, or raises where it is no JSON text."""
    try:
        text.decode()
    except UnicodeDecodeError as error:
        raise NotJson(error.start, "this isn't UTF-8") from None
    whole = value(text, skipped(text, 0), 1)
    at = skipped(text, whole[2])
    if at < len(text):
        raise NotJson(at, "the plan has ended before this")
    return whole


def found_at(plan, path):
    """Returns the value at the path, or the last one on it that is there, and the first step that isn't."""
    for step in path.split("/")[1:]:
        inside = plan[1]
        name = step.replace("~1", "/").replace("~0", "~")
        if isinstance(inside, dict) and name in inside:
            plan = inside[name]
        elif isinstance(inside, list) and step.isdigit() and int(step) < len(inside):
            plan = inside[int(step)]
        else:
            return plan, name
    return plan, ""


def of_plan(file, text, rule, path):
    """Shows what a plan is refused for."""
    try:
        it, missing = found_at(read_plan(text), path)
    except NotJson as error:
        if file.endswith((".sl", ".pl0")):
            return f"polydbg: {file} is no plan; `polydbg trace {file}` runs a source"
        return pointed(file, text, *error.args)
    if rule == "NotJson":
        return ""
    return pointed(file, text, it[0], OF_PLANS.get(rule, rule).format(missing))


def text_at(text, it):
    return json.loads(text[it[0] : it[2]])


def file_among(words):
    """Returns the name of the file among a command's words, of which some may be options."""
    rest = list(words[1:])
    while rest:
        it = rest.pop(0)
        if it == "--":
            return rest[0]
        if it == "--fuel":
            rest.pop(0)
        elif not it.startswith("--"):
            return it
    return ""


def of_source(command, file, number, rule, at):
    """Shows what a source, an export or an entry is refused for."""
    if command == "trace":
        if rule == "NoSuchEntry":
            return f"{file}: there is no function `main` in it"
        return pointed(file, read(file), at, OF_SOURCES.get(rule, rule))
    text = read(file)
    plan = read_plan(text)
    if rule in OF_EXPORTS:
        where, why = OF_EXPORTS[rule]
        it, _ = found_at(plan, f"/{where}/{at}")
        return pointed(file, text, it[0], why)
    name = text_at(text, found_at(plan, f"/sources/{number}/name")[0])
    return pointed(name, read(name), at, OF_SOURCES.get(rule, rule))


def of_binding(command, file, number):
    """Shows which binding of the plan isn't as the command needs."""
    text = read(file)
    it, missing = found_at(read_plan(text), f"/bindings/{number}")
    return f"{file}: the plan has no binding {number}" if missing else pointed(file, text, it[0], OF_BINDINGS[command])


def read(file):
    with open(os.fsencode(file), "rb") as it:
        return it.read()


def explained(message, words):
    """Returns what is to be shown after the message, or nothing."""
    of_plans = re.fullmatch(r"polydbg: plan (\w+) at (.*)\n", message, re.S)
    of_sources = re.fullmatch(r"polydbg: source (\d+) (\w+) at (\d+)\n", message)
    of_bindings = re.fullmatch(r"polydbg: no observer (\d+)\n", message)
    unread = re.fullmatch(r"polydbg: cannot read (.*)\n", message, re.S)
    file = file_among(words)
    if of_plans:
        return of_plan(file, read(file), *of_plans.groups())
    if of_sources:
        return of_source(words[0], file, int(of_sources[1]), of_sources[2], int(of_sources[3]))
    if of_bindings:
        return of_binding(words[0], file, int(of_bindings[1]))
    if unread and words[0] != "trace" and unread[1] != file:
        return f"polydbg: the plan names this source; a name that doesn't begin with / is looked for from the current folder, {os.getcwd()}"
    return ""


def main(said, *words):
    try:
        lines = explained(os.fsdecode(read(said)), words)
    except (OSError, ValueError, IndexError, KeyError, TypeError, NotJson, RecursionError):
        # A file may have changed since it was refused.
        lines = ""
    if lines:
        sys.stdout.buffer.write(f"{lines}\n".encode(errors="surrogateescape"))


if __name__ == "__main__":
    main(*sys.argv[1:])
