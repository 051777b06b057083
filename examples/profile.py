#!/usr/bin/env python3
"""Where the processor time of a measure goes, by samples taken 25,000 times a second:

    perf record -q -e cpu-clock -F 25000 -g -o samples crates/asio_speed/out/asio_speed four_strands 1024 4
    perf script -i samples | examples/profile.py 20480

prints nanoseconds a step of so many steps, by what was done.
"""
import collections
import re
import sys

NANOSECONDS = 1_000_000_000 / 25_000

# What a sample counts for, by a word in its stack, the first that is found.
KERNEL = [
    ("sched_yield", "looks"), ("page_fault", "memory"), ("brk", "memory"), ("munmap", "memory"), ("mmap", "memory"),
    ("clone", "threads"), ("ret_from_fork", "threads"), ("do_exit", "threads"), ("madvise", "threads"), ("futex", "threads"),
]
# The same by the function that ran.
PROGRAM = [
    (r"strand_core::|lane_turns::(handler_baton|calls|pen|lane_poster)|op_handlers::", "polls"),
    (r"lane_context::context::Context::(scan|run)|lane_turns::(baton|lookout|reactor_baton)\b|turn_table::|ready_hints::|yield", "looks"),
    (r"(alloc|free|brk|trim)", "memory"),
    (r"(clone3|pthread_create)", "threads"),
    (r"mem(cpy|move|set)", "copies"),
]


def kind(stack):
    """What a sample with this stack counts for, the function that ran first."""
    top = re.sub(r"^\s*\S+ ", "", stack[0])
    if "kernel" in top:
        return next((kind for word, kind in KERNEL if any(word in line for line in stack)), "other")
    if "libc" in top or "ld-linux" in top:
        return next((kind for words, kind in PROGRAM[1:] if re.search(words, top)), "other")
    return next((kind for words, kind in PROGRAM[:2] if re.match(words, top)), "making, parting, merging")


def stacks(lines):
    """The stacks of samples, as `perf script` prints them."""
    stack = []
    for line in lines:
        if re.match(r"\s+[0-9a-f]+ ", line):
            stack.append(line.strip("\n"))
        elif not line.strip() and stack:
            yield stack
            stack = []
    if stack:
        yield stack


steps = int(sys.argv[1])
taken = collections.Counter(kind(stack) for stack in stacks(sys.stdin))
for name, count in taken.most_common():
    print(f"{count * NANOSECONDS / steps:8.1f} ns  {name}")
print(f"{sum(taken.values()) * NANOSECONDS / steps:8.1f} ns  in all")
