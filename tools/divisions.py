#!/usr/bin/env python3
"""Divisions in the compiled library: no alignment that is a power of two may come to one.

    tools/divisions.py ARCHIVE

Every function that objdump shows is followed from its entry along all its jumps; `jmp *` goes to every entry of the function's jump tables, as
the relocations tell them. What is known on all ways to an instruction: that one register is another, or another less one, and that a register
holds a number a for which a & (a - 1) is not 0, since `test` or `and` of both came before je or jne: a is neither 0 nor a power of two. A write to
a register ends what is known of it, a call what is known of all. It fails where a register divides of which the last is not known, where code is
not reached, so that its jumps were not understood, and where there is no division or no such test.
"""
import collections
import re
import subprocess
import sys

REGISTERS = {*(f"r{name}" for name in "ax bx cx dx si di bp sp".split()), *(f"r{number}" for number in range(8, 16))}
Instruction = collections.namedtuple("Instruction", "name operands target leaves")


def whole(operand):
    """The 64 bits of a register, by their name; another operand as it stands."""
    found = re.fullmatch(r"%(?:(r\d+)[dwb]?|[re]?([abcd])[xlh]|[re]?(si|di|bp|sp)l?)", operand)
    return operand if not found else found[1] or (f"r{found[2]}x" if found[2] else f"r{found[3]}")


def functions(archive):
    """Of each function its instructions by address, and where its jump tables lead."""
    code, bases, tables = {}, collections.defaultdict(set), collections.defaultdict(set)
    ways = ["-dr", "--no-show-raw-insn"], ["-r"]
    shown = [subprocess.run(["objdump", *way, archive], capture_output=True, text=True, check=True).stdout for way in ways]
    for line in shown[0].splitlines():
        if head := re.fullmatch(r"[0-9a-f]+ <(.+)>:", line):
            function = code.setdefault(head[1], {})
        elif relocation := re.match(r"\t\t\t[0-9a-f]+: R_X86_64_\w+\t(\S+?)([+-]0x[0-9a-f]+)?$", line):
            function[at] = function[at]._replace(leaves=True)
            bases[relocation[1]].add(int(relocation[2] or "0", 16) + 4)
        elif found := re.match(r" *([0-9a-f]+):\t(?:(?:rep|repz|lock|data16|cs|bnd|notrack) )*(\S+) *([^#<]*)", line):
            at, name, text = int(found[1], 16), found[2], found[3].strip()
            operands = [operand.strip() for operand in re.split(r",(?![^(]*\))", text)] if text else []
            target = int(text, 16) if name.startswith("j") and re.fullmatch("[0-9a-f]+", text) else None
            function[at] = Instruction(name, operands, target, False)
    for section, records in re.findall(r"^RELOCATION RECORDS FOR \[(\.rodata\..+)\]:\n.*\n((?:.+\n)*)", shown[1], re.M):
        for place, name, to in re.findall(r"^([0-9a-f]+) R_X86_64_PC32 +\.text\.(.+?)(?:\+0x([0-9a-f]+))?$", records, re.M):
            base = max(base for base in bases[section] if base <= int(place, 16))
            tables[name].add(int(to or "0", 16) - int(place, 16) + base)
    return code, tables


def written(name, operands):
    """The registers that an instruction writes."""
    if name == "call" or not operands or "%es:" in "".join(operands):
        return REGISTERS
    if re.match(r"i?div|i?mul", name) and len(operands) == 1:
        return {"rax", "rdx"}
    if re.fullmatch(r"(cmp|test)[bwlq]?|j\w+|push|nop\w?", name):
        return set()
    return set(map(whole, operands)) if "xchg" in name else {whole(operands[-1])}


def behind(name, operands, known):
    """What is known behind it: ("same", a, b), ("less", a, b) for a = b - 1, ("no power", a), and ("flags", a) where they tell of a & (a - 1)."""
    gone, keeps_flags = written(name, operands), re.match(r"mov|lea|j|nop|set|cmov|push|pop", name)
    facts = {fact for fact in known if not gone & set(fact[1:]) and (fact[0] != "flags" or keeps_flags)}
    first, last = (whole(operands[0]), whole(operands[-1])) if operands else ("", "")
    wide = bool(operands) and operands[-1] == f"%{last}"
    if name == "mov" and wide and operands[0] == f"%{first}" and first != last:
        facts |= {("same", last, first)} | ({("no power", last)} if ("no power", first) in known else set())
    elif name == "lea" and wide and (less := re.fullmatch(r"-0x1\(%(\w+)\)", operands[0])) and less[1] != last:
        facts.add(("less", last, less[1]))
    elif wide and (name == "dec" or (name, operands[0]) in (("add", "$0xffffffffffffffff"), ("sub", "$0x1"))):
        facts |= {("less", last, fact[2]) for fact in known if fact[:2] == ("same", last)}
    elif name in ("test", "and") and wide and operands[0] == f"%{first}":
        pairs = {(last, first)} if name == "and" else {(last, first), (first, last)}
        facts |= {("flags", fact[2]) for fact in known if fact[0] == "less" and fact[1:] in pairs}
    return facts


def follow(code, tables):
    """What is known before each instruction that is reached, and the jumps that tell numbers from powers of two."""
    known, waiting, tests, following = {min(code): frozenset()}, [min(code)], set(), dict(zip(sorted(code), sorted(code)[1:]))
    while waiting:
        at = waiting.pop()
        name, operands, target, leaves = code[at]
        facts = behind(name, operands, known[at])
        no_power = facts | {("no power", fact[1]) for fact in facts if fact[0] == "flags"}
        tests |= {at} if name in ("je", "jne") and no_power != facts else set()
        targets = () if leaves or not name.startswith("j") else tables if target is None else [target]
        ways = [(to, no_power if name == "jne" else facts) for to in targets]
        if not re.match(r"jmp|ret|ud2|hlt", name):
            ways.append((following[at], no_power if name == "je" else facts))
        for to, facts in ways:
            merged = known.get(to, frozenset(facts)) & facts
            if merged != known.get(to):
                known[to], waiting = merged, [*waiting, to]
    return known, tests


def main(archive):
    wrong, divisions, tests = [], [], 0
    code, tables = functions(archive)
    for function, instructions in code.items():
        known, found = follow(instructions, tables[function])
        tests += len(found)
        for at, (name, operands, *_) in instructions.items():
            if at not in known and not re.match(r"nop|xchg|int3|ud2", name):
                wrong.append(f"{function}: no way to {at:x} was found")
            elif re.fullmatch(r"i?div[bwlq]?", name):
                divisions.append(function)
                if ("no power", whole(operands[0])) not in known[at]:
                    wrong.append(f"{function}: at {at:x} a power of two in {operands[0]} may divide")
    wrong += [f"{archive}: no {what} was found" for what, seen in (("division", divisions), ("test for a power of two", tests)) if not seen]
    if wrong:
        return "\n".join(wrong)
    counts = ", ".join(f"{function} {count}" for function, count in collections.Counter(divisions).items())
    print(f"{len(divisions)} divisions, all behind one of {tests} tests for a power of two, in {len(code)} functions: {counts}")


if __name__ == "__main__":
    sys.exit(main(*sys.argv[1:]))
