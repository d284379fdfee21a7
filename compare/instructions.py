#!/usr/bin/env python3
"""Instructions of one call, counted by callgrind: of the library, of plain Rust, and of the Rust on headers that stand ready; and how many divide.

    instructions.py PROGRAM [CASE..]     PROGRAM is compare as `run speed` builds it; without CASE all are counted

A ratio is the library's to the number of instructions before it. Of a case of bases a call is the check of one base, of one of lookups one lookup. With KEEP=FOLDER in the
environment the profiles stay there, for callgrind_annotate.
"""

import os
import re
import subprocess
import sys
import tempfile
from pathlib import Path

CALLS = 5
# A case of bases checks so many at a time, and one of lookups looks up so many addresses (src/speed.rs).
AT_A_TIME = {"base-": 64, "region-in-": 65536}


def said(*command):
    return subprocess.run(command, capture_output=True, text=True, check=True)


def division_addresses(program):
    """Where the program has a div or an idiv."""
    listing = said("objdump", "-d", "--no-show-raw-insn", program).stdout
    return {int(address, 16) for address in re.findall(r"^ *([0-9a-f]+):\t+i?div[bwlq]? ", listing, re.M)}


def executed(profile, program, addresses):
    """How often the instructions at these addresses of the program were executed. The line behind `calls=` has the cost of what is called."""
    total, here, skip = 0, False, False
    for line in profile.read_text().splitlines():
        if line.startswith("ob="):
            here = Path(line[3:]).name == Path(program).name
        elif re.match(r"0x", line) and here and not skip:
            address, _, count = line.split()
            total += int(count) if int(address, 16) in addresses else 0
        skip = line.startswith("calls=")
    return total


def counts(program, case, side, folder, addresses):
    """Instructions and divisions of one call, without what prepares it; 0 and 0 where the side has no answer."""
    profile = Path(folder) / f"{case}.{side}"
    valgrind = ["valgrind", "--tool=callgrind", f"--callgrind-out-file={profile}", "--collect-atstart=no", "--toggle-collect=*speed::measured*"]
    profile_of = ["--dump-instr=yes", "--compress-pos=no", "--compress-strings=no"]
    run = said(*valgrind, *profile_of, program, "speed", "--only", case, "--side", side, "--rounds", str(CALLS))
    calls = CALLS * next((times for name, times in AT_A_TIME.items() if case.startswith(name)), 1)
    return int(re.search(r"Collected : (\d+)", run.stderr)[1]) // calls, executed(profile, program, addresses) // calls


def columns(library, plain, rust):
    """Instructions and divisions of library and plain Rust, instructions of the Rust, and behind the others the ratio of the library's to theirs."""
    ratio = [f"{library[0] / other[0]:.2f}" if other[0] else "-" for other in (plain, rust)]
    words = [*library, *(plain if plain[0] else "--"), ratio[0], rust[0] or "-", ratio[1]]
    return "".join(f"{word:>11}" for word in words)


def main(program, *wanted):
    names = said(program, "speed", "names").stdout.split()
    addresses = division_addresses(program)
    if not addresses:
        sys.exit(f"{program}: objdump shows no division")
    with tempfile.TemporaryDirectory() as temporary:
        folder = os.environ.get("KEEP", temporary)
        titles = ["library", "divisions", "plain", "divisions", "ratio", "rust", "ratio"]
        print(f"{'case':<24}" + "".join(f"{title:>11}" for title in titles))
        for case in wanted or names:
            print(f"{case:<24}{columns(*(counts(program, case, side, folder, addresses) for side in ('library', 'plain', 'rust')))}", flush=True)


main(*sys.argv[1:])
