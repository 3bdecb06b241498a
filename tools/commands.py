#!/usr/bin/env python3
"""Tries each line of commands/lines as the words of a command of polydbg, over the files in commands/data.

  tools/commands.py PROGRAM     names the first line whose answer isn't the one in commands/answers, and ends with status 1 where there is one

An answer is the line itself behind `$ `, what the command writes, what it tells on standard error, and its status. The answers were made from the
rules of the languages and formats, not by the program.
"""
import os
import subprocess
import sys

TOP = os.path.dirname(os.path.dirname(os.path.abspath(__file__)))
ROOM = os.path.join(TOP, "commands")


def answer_to(program, line):
    """What the command of this line comes to, as commands/answers has it."""
    words = [word for word in line.split(" ") if word]
    run = subprocess.run([program, *words], cwd=os.path.join(ROOM, "data"), stdin=subprocess.DEVNULL, capture_output=True)
    return b"$ " + line.encode() + b"\n" + run.stdout + run.stderr + b"status " + str(run.returncode).encode() + b"\n"


def main():
    program = os.path.abspath(sys.argv[1])
    with open(os.path.join(ROOM, "lines"), encoding="utf-8") as f:
        lines = f.read().split("\n")[:-1]
    with open(os.path.join(ROOM, "answers"), "rb") as f:
        left = f.read()
    for line in lines:
        answer = answer_to(program, line)
        if not left.startswith(answer):
            sys.stdout.write(f"commands: another answer to: {line}\n{answer.decode(errors='replace')}")
            sys.exit(1)
        left = left[len(answer):]
    if left:
        print("commands: there are answers behind the last line")
        sys.exit(1)
    print(f"commands: lines {len(lines)}, faults 0")


main()
