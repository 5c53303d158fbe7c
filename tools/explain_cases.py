#!/usr/bin/env python3
"""Runs tools/explain on the table explain_cases.txt and compares what it prints, and its exit status, with what is wanted.

In the table a line `= xan: TITLE` or `= dtal: TITLE` begins a case. Its source or text follows with `|` in front of each line, and then what is wanted with `>` in front: the exit status, and
the lines. `<` in front records what the program is to answer (`xanadu goals` or `dtal verify`): its status and its lines. Where the program does not do that yet, the case
waits, and explain is given the recorded answer; where it does, its own answer must be the recorded one. `~` in front records an answer that is always given instead of the program's.
"""
import os
import subprocess
import sys
import tempfile

HERE = os.path.dirname(os.path.abspath(__file__))
ROOT = os.path.dirname(HERE)
WORDS = {"xan": ("xanadu", "goals"), "dtal": ("dtal", "verify")}


class Case:
    def __init__(self, kind, title):
        self.kind, self.title, self.rows = kind, title, {"|": [], ">": [], "<": [], "~": []}


def cases():
    case = None
    with open(os.path.join(HERE, "explain_cases.txt"), encoding="utf-8", newline="\n") as file:
        for row in file.read().split("\n"):
            if row.startswith("= "):
                if case:
                    yield case
                case = Case(*row[2:].split(": ", 1))
            elif row[:1] in "|><~" and row:
                case.rows[row[0]].append(row[1:])
    yield case


def run(words, folder, **programs):
    done = subprocess.run(words, cwd=folder, env={**os.environ, **programs}, capture_output=True, stdin=subprocess.DEVNULL)
    return [str(done.returncode)] + done.stdout.decode("utf-8").splitlines() + done.stderr.decode("utf-8").splitlines()


def stand_in(folder, answer):
    """A program that gives the recorded answer to whatever it is asked."""
    path = os.path.join(folder, "stand_in")
    with open(path, "w", encoding="utf-8") as file:
        file.write("#!/bin/sh\ncat <<'END'\n" + "".join(line + "\n" for line in answer[1:]) + f"END\nexit {answer[0]}\n")
    os.chmod(path, 0o755)
    return path


def tried(case, folder):
    """What is wrong with a case, and whether it waits for the program."""
    program, command = WORDS[case.kind]
    name, recorded, waits = f"case.{case.kind}", case.rows["~"] or case.rows["<"], False
    with open(os.path.join(folder, name), "w", encoding="utf-8", newline="") as file:
        file.write("".join(line + "\n" for line in case.rows["|"]))
    if case.rows["<"]:
        answer = run([os.environ.get(program.upper(), os.path.join(ROOT, "bin", program)), command, name], folder)
        waits = answer[0] == "20" or answer == ["2", "words: not a command"]
        if not waits and answer != recorded:
            return [f"{program} {command} answers", *answer, "recorded is", *recorded], False
    programs = {program.upper(): stand_in(folder, recorded)} if case.rows["~"] or waits else {}
    got = run([os.path.join(HERE, "explain"), name], folder, **programs)
    return ([] if got == case.rows[">"] else ["it says", *got, "wanted is", *case.rows[">"]]), waits


def main():
    passed = failed = waiting = 0
    for case in cases():
        with tempfile.TemporaryDirectory() as folder:
            wrong, waits = tried(case, folder)
        if wrong:
            print(f"{case.title}:", *wrong, sep="\n  ")
        passed, failed, waiting = passed + (not wrong), failed + bool(wrong), waiting + waits
    print(f"{passed} passed, {failed} failed; {waiting} wait for the programs, and took the recorded answer")
    sys.exit(1 if failed or not passed else 0)


if __name__ == "__main__":
    main()
