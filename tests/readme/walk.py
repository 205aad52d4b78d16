#!/usr/bin/env python3
"""Runs README's commands, those behind a dollar sign, and holds what each prints against the lines that stand under it.

walk.py README FOLDER: the commands run in the folder, one after another, but for those that prove: these are skipped, since they have been run.
A line `...` stands for any lines. The last line is 'N passed, M failed'."""
import subprocess
import sys


def walked(text):
    """Each command with the lines that stand under it in its block."""
    found = []
    for line in text.split("\n"):
        if line.startswith("    $ "):
            found.append((line[6:], []))
        elif line.startswith("    ") and found and found[-1] is not None:
            found[-1][1].append(line[4:])
        elif found and found[-1] is not None:
            found.append(None)
    return [step for step in found if step is not None]


def agrees(shown, printed):
    """The printed lines are those shown; `...` stands for any number of lines."""
    if not shown:
        return not printed
    if shown[0] == "...":
        return any(agrees(shown[1:], printed[n:]) for n in range(len(printed) + 1))
    return bool(printed) and shown[0].rstrip() == printed[0].rstrip() and agrees(shown[1:], printed[1:])


def main():
    readme, folder = sys.argv[1:]
    passed = failed = 0
    for command, shown in walked(open(readme, encoding="utf-8").read()):
        if command.startswith("rt "):
            continue
        ran = subprocess.run(command, shell=True, cwd=folder, capture_output=True)
        printed = (ran.stdout + ran.stderr).decode("utf-8", "replace").splitlines()
        if agrees(shown, printed):
            passed += 1
        else:
            failed += 1
            print(f"failed: {command}", *printed, sep="\n    ")
    if passed + failed == 0:
        failed = 1
        print("failed: no command was found")
    print(f"{passed} passed, {failed} failed")
    sys.exit(failed != 0)


main()
