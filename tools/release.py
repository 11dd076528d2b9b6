#!/usr/bin/env python3
"""release.py [PROGRAM]   makes release/ of a program that was built of the sources here (crates/pm_main/out/pm_main)
release.py --check     behind the gate: whether release/ is what the gate built, bit by bit; status 1 where it is not

release/ holds the program `pm` for x86-64 Linux, its SHA-256 (pm.sha256), the line of the kit that built it (kit), and the checksum of the sources
that it was built from (sources, as tools/sources prints it). Another kit may build other bits: then only what needs no kit is compared.
"""
import hashlib
import os
import shutil
import subprocess
import sys
from pathlib import Path

TOP = Path(__file__).resolve().parent.parent
RELEASE = TOP / 'release'
BUILT = TOP / 'crates/pm_main/out/pm_main'


def printed(*words):
    return subprocess.run(words, stdout=subprocess.PIPE, text=True, check=True).stdout.strip()


def sum_of(path):
    return hashlib.sha256(path.read_bytes()).hexdigest()


def make(program):
    RELEASE.mkdir(exist_ok=True)
    shutil.copyfile(program, RELEASE / 'pm')
    os.chmod(RELEASE / 'pm', 0o755)
    (RELEASE / 'pm.sha256').write_text(f'{sum_of(program)}  pm\n')
    (RELEASE / 'kit').write_text(printed('rt', 'version') + '\n')
    (RELEASE / 'sources').write_text(printed(str(TOP / 'tools/sources')) + '\n')
    return 0


def differences():
    """What is not as it should be, a line each."""
    kept = {name: (RELEASE / name).read_text().strip() for name in ('pm.sha256', 'kit', 'sources')}
    if kept['sources'] != printed(str(TOP / 'tools/sources')):
        yield 'release/sources: the program was built of other sources than those here'
    if kept['pm.sha256'] != f"{sum_of(RELEASE / 'pm')}  pm":
        yield 'release/pm.sha256: it is not the sum of release/pm'
    if kept['kit'] != printed('rt', 'version'):
        print(f"note: release/pm was built with {kept['kit']}, and another kit is here, so its bits are not compared")
    elif not BUILT.is_file():
        yield f'{BUILT.relative_to(TOP)}: no program was built here (`rt ci` builds it), so there is none to compare'
    elif (RELEASE / 'pm').read_bytes() != BUILT.read_bytes():
        yield 'release/pm: it is not the program that the gate built'


def main(args):
    if args != ['--check']:
        return make(Path(args[0]) if args else BUILT)
    wrong = list(differences())
    print('\n'.join(wrong) or 'release/ is the program of these sources')
    return 1 if wrong else 0


if __name__ == '__main__':
    sys.exit(main(sys.argv[1:]))
