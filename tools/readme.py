#!/usr/bin/env python3
"""The commands of README.md's shell blocks, one to a line, but for those of the gate (.ci/run), which runs for minutes, and of tools/check-hosts, which runs them. With
`--c` its C."""
import pathlib
import re
import sys

text = (pathlib.Path(__file__).resolve().parent.parent / "README.md").read_text()


def blocks(language):
    return re.findall(rf"^```{language}\n(.*?)^```", text, re.S | re.M)


if sys.argv[1:] == ["--c"]:
    print("\n".join(blocks("c")))
    sys.exit()
for block in blocks("sh"):
    for command in block.splitlines():
        if command and not command.startswith("#") and ".ci/run" not in command and "check-hosts" not in command and "IGVM_SRC" not in command:
            print(command)
