#!/usr/bin/env python3
"""Holds the lines of `compare emit`, read from standard input, against tools/model.py: each a sheet in hexadecimal digits, its line by the verdict, by the strict one and by
the report, and, each behind the call and `: `, its lines for an address and for an index. A report's line has no `; `: `reported 2 of 5, 20 row 2, 32 row 4, 15 row 0, 34 row 0`, or it is that of a refusal; as many words are lent as it takes."""

import sys
from pathlib import Path

sys.path.insert(0, str(Path(__file__).resolve().parent.parent / "tools"))
import model

count = 0
for text in sys.stdin:
    digits, _, lines = text.rstrip("\n").partition(" ")
    verdict, strict_verdict, report, of_address, for_index = lines.split("; ")
    asked = [("verdict", verdict), ("strict_verdict", strict_verdict), ("report", report), of_address.split(": "), for_index.split(": ")]
    for call, line in asked:
        said = model.line(bytes.fromhex(digits), call)
        if said != line:
            sys.exit(f"DIFFERENCE: {call}: document 01 in Rust says {line}; tools/model.py says {said}\n  sheet: {digits}")
    count += 1
print(f"tools/model.py: {count} sheets agree with document 01 in Rust, by the verdict, by the strict one, by the report, of an address and for an index")
