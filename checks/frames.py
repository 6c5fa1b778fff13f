#!/usr/bin/env python3
"""frames.py PROGRAM [MOST]: the stack frames of a built program, largest first, none of which may exceed MOST bytes (65,536).

A frame is what a function takes from the stack pointer at its start: in one step, or page by page down to an address."""
import re
import subprocess
import sys

HEAD = re.compile(r'^[0-9a-f]+ <(.*)>:$')
STEP = re.compile(r'\tsub +\$0x([0-9a-f]+),%rsp')
DOWN = re.compile(r'\tsub +\$0x([0-9a-f]+),%r11')
PROLOGUE = 40


def frame(lines):
    """What the first lines of a function take; the step of a loop down to an address is part of the way to it."""
    size, looped = 0, False
    for line in lines:
        down, step = DOWN.search(line), STEP.search(line)
        if down:
            size, looped = size + int(down[1], 16), True
        elif step and looped:
            looped = False
        elif step:
            size += int(step[1], 16)
    return size


def frames(program):
    listing = subprocess.run(['objdump', '-d', '--no-show-raw-insn', program], capture_output=True, text=True, check=True).stdout
    bodies = {}
    for line in listing.splitlines():
        head = HEAD.match(line)
        if head:
            body = bodies.setdefault(head[1], [])
        elif bodies and len(body) < PROLOGUE:
            body.append(line)
    return {name: frame(body) for name, body in bodies.items()}


def main():
    most = int(sys.argv[2]) if len(sys.argv) > 2 else 65536
    rows = sorted(((size, name) for name, size in frames(sys.argv[1]).items()), reverse=True)
    for size, name in rows[:8]:
        print('%7d  %s' % (size, name))
    over = [name for size, name in rows if size > most]
    print('%d passed, %d failed' % (len(rows) - len(over), len(over)))
    sys.exit(1 if over else 0)


if __name__ == '__main__':
    main()
