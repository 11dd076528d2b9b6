#!/usr/bin/env python3
"""Runs the commands that README.md and docs/COMMANDS.md show, in their order, and compares what they print with what stands behind them.

    readme.py [FOLDER]    in the checkout FOLDER, or in this one; files that the commands make are removed

It fails where something differs. Needs the program, clang and lld for wasm32 (clang-14, clang-19) and node. Where binaryen is installed, clang runs
its wasm-opt on what it optimizes, and the commands on `plugin.wasm` print something else.
"""
import os
import re
import subprocess
import sys

TOP = os.path.abspath(sys.argv[1] if len(sys.argv) > 1 else os.path.join(os.path.dirname(os.path.abspath(__file__)), ".."))
PAGES = ("README.md", "docs/COMMANDS.md")


def blocks():
    """The commands of each block, each with the lines behind it."""
    for name in PAGES:
        with open(f"{TOP}/{name}", encoding="utf-8") as page:
            found = re.findall(r"^```\n(\$ .*?)^```$", page.read(), re.S | re.M)
        for part in (part for block in found for part in re.split(r"^\$ ", block, flags=re.M)[1:]):
            command, _, printed = part.partition("\n")
            yield command, printed


def main():
    before, count, wrong = set(os.listdir(TOP)), 0, 0
    for command, printed in blocks():
        run = subprocess.run(["sh", "-c", command], cwd=TOP, stdout=subprocess.PIPE, stderr=subprocess.STDOUT, timeout=7200)
        count += 1
        if run.stdout.decode(errors="replace") != printed:
            wrong += 1
            print(f"$ {command}\nprints\n{run.stdout.decode(errors='replace')}and not\n{printed}")
    for name in set(os.listdir(TOP)) - before:
        if os.path.isfile(f"{TOP}/{name}"):
            os.remove(f"{TOP}/{name}")
    print(f"{count} commands, {wrong} of them print something else")
    sys.exit(1 if wrong else 0)


main()
