#!/usr/bin/env python3
"""coverage.py ARCHIVE PROGRAM..: what of the archive's functions the programs' runs executed.

PROGRAM.counts is callgrind's file of a run, by instruction and with jumps. Places are a function and an offset in it, the same in
the archive and in every program.
"""
import re
import subprocess
import sys
from collections import Counter, defaultdict
from os.path import basename


def output(*command):
    return subprocess.run(command, check=True, capture_output=True, text=True).stdout


def disassembled(archive):
    """By function its instructions, by offset; fill between them, which does nothing, is left out."""
    functions = {}
    for line in output("objdump", "-d", "-w", "--no-show-raw-insn", archive).splitlines():
        if head := re.fullmatch(r"([0-9a-f]+) <(.*)>:", line):
            if head[2] in functions:
                sys.exit(f"coverage: two functions are named {head[2]}")
            start, code = int(head[1], 16), functions.setdefault(head[2], {})
        elif found := re.match(r"\s*([0-9a-f]+):\t(.*)", line):
            text = re.sub(r"\s+", " ", found[2]).strip()
            if not re.search(r"\bnop|xchg %ax,%ax|int3", text):
                code[int(found[1], 16) - start] = text
    return functions


class Counts:
    """By place: executions, and of jumps how often they went where."""

    def __init__(self):
        self.executed = Counter()
        self.followed = defaultdict(Counter)

    def add(self, program, functions):
        at = {}
        for line in output("nm", "--defined-only", program).splitlines():
            address, _, name = line.split(maxsplit=2)
            at.update({int(address, 16) + offset: (name, offset) for offset in functions.get(name, ())})
        if len(at) != sum(map(len, functions.values())):
            sys.exit(f"coverage: {program} does not have each function of the archive once")
        inside, jump = False, None
        for line in open(program + ".counts"):
            if line.startswith("ob="):
                inside = basename(line.strip()) == basename(program)
            elif found := re.match(r"(?:jcnd|jump)=(\d+)(?:/\d+)? (0x[0-9a-f]+)", line):
                jump = int(found[1]), int(found[2], 16)
            elif found := re.match(r"(0x[0-9a-f]+) ?(\d*)", line):
                place = inside and at.get(int(found[1], 16))
                if place and jump:
                    self.followed[place][at.get(jump[1])] += jump[0]
                elif place:
                    self.executed[place] += int(found[2])
                jump = None


def conditional(text):
    """The offset that a conditional jump goes to, or none."""
    found = re.match(r"j(?!mp)\w+ \S+ <[^>]*?(?:\+0x([0-9a-f]+))?>", text)
    return found and int(found[1] or "0", 16)


def faults(name, code, counts):
    """By offset, what is not reached."""
    found = {}
    for (offset, text), after in zip(code.items(), [*list(code)[1:], None]):
        times = counts.executed[name, offset]
        target = conditional(text)
        if times == 0:
            found[offset] = "not executed"
        elif target is not None:
            taken = counts.followed[name, offset][name, target]
            if counts.executed[name, target] < taken or counts.executed[name, after] < times - taken:
                sys.exit(f"coverage: the counts at {name}+{offset:#x} do not agree")
            if taken == 0:
                found[offset] = "never taken"
            elif taken == times:
                found[offset] = "always taken"
    return found


def show(name, code, found):
    """The faults of a function, each with the two instructions before it."""
    offsets = list(code)
    near = {i + back for i, offset in enumerate(offsets) if offset in found for back in (-2, -1, 0) if i + back >= 0}
    print(f"\n{name}")
    for i in sorted(near):
        if i - 1 not in near:
            print("  ..")
        print(f"  {offsets[i]:5x}  {found.get(offsets[i], ''):12}  {code[offsets[i]]}")


def main():
    functions = disassembled(sys.argv[1])
    counts = Counts()
    for program in sys.argv[2:]:
        counts.add(program, functions)
    total = Counter()
    print(f"{'function':32} {'instructions':>12} {'executed':>9} {'jumps':>6} {'both ways':>10}")

    def row(name, of):
        print(f"{name:32} {of['instructions']:12} {of['executed']:9} {of['jumps']:6} {of['both']:10}")

    gaps = {}
    for name, code in functions.items():
        gaps[name] = faults(name, code, counts)
        jumps = [offset for offset, text in code.items() if conditional(text) is not None]
        of = Counter(
            instructions=len(code),
            executed=sum(counts.executed[name, offset] > 0 for offset in code),
            jumps=len(jumps),
            both=sum(offset not in gaps[name] for offset in jumps),
        )
        row(name, of)
        total += of
    row("all", total)
    for name, code in functions.items():
        for offset, text in code.items():
            if text.startswith("jmp *"):
                print(f"indirect jump at {name}+{offset:#x}: goes to {len(counts.followed[name, offset])} places")
    for name, found in gaps.items():
        if found:
            show(name, functions[name], found)


main()
