#!/usr/bin/env python3
"""Runs the calls of the program rart_deep under a limit of the stack.

usage: nested_keys.py [PASSED FAILED]

Each row of CALLS names a call on trees of 1024 keys nested in each other, whose nodes are a path, and the number that
it answers. A call is a process of its own, whose stack has at most KIB KiB, and passes if it ends with status 0 and
prints its row. So is SHORT, with a limit of its own. The first must not end with LITTLE KiB. /bin/sh must have
`ulimit -s`.

PASSED and FAILED are the counts of the step before, 0 if not given. The last line adds the calls to them.
"""
import pathlib
import subprocess
import sys

sys.dont_write_bytecode = True

CRATE = pathlib.Path(__file__).resolve().parents[1] / "crates" / "rart_deep"

# What a process may take: an eighth of what systems give. As LLVM builds it, `count_range` takes 0.55 KiB a level,
# `try_update` 0.4 KiB, and any other call and the drop of the tree 0.35 KiB at most, with keys of 1 KiB.
KIB = 1024

# The drop of 128 levels of wide nodes with keys of at most 128 bytes, its answer, and what it may take: the compiler's
# own recursion drops such a tree, by 1.5 KiB a level.
SHORT = ("drop_short_keys", 6400, 256)

# In so little no call can end: a row of its own shows that the limit is in force.
LITTLE = 64

CALLS = [
    ("insert", 1024),
    ("insert_new", 1024),
    ("try_insert", 1024),
    ("remove", 1024),
    ("delete", 1023),
    ("pop_first", 1024),
    ("pop_last", 1024),
    ("update", 3072),
    ("try_update", 3072),
    ("get_mut", 1024),
    ("get_or_insert", 1024),
    ("values_mut", 1024),
    ("retain", 512),
    ("range_retain", 513),
    ("take_range", 511),
    ("remove_range", 2),
    ("routes", 1024),
    ("clear", 0),
    ("take_prefix", 1023),
    ("remove_prefix", 1023),
    ("append", 1024),
    ("bulk_load_sorted", 1024),
    ("from_pairs", 1024),
    ("drop_closing_zeros", 1024),
    ("into_pairs", 1024),
    ("stats", 1024),
    ("equal", 1024),
    ("intersect_count", 1024),
    ("intersect_subset", 1024),
    ("intersect_values", 1024),
    ("intersect_keys", 1024),
    ("intersect_views", 1024),
    ("look_up", 1024),
    ("longest", 1024),
    ("matches", 1024),
    ("first_key_value", 1),
    ("last_key_value", 1024),
    ("count_below", 1023),
    ("common_prefix", 2),
    ("count_prefix", 1023),
    ("count_range", 1022),
    ("clone", 1024),
    ("outline", 1024),
    ("iter", 1024),
    ("iter_descending", 1024),
    ("both_ends", 1024),
    ("values", 1024),
    ("values_both_ends", 1024),
    ("prefix", 1023),
    ("prefix_descending", 1023),
    ("range", 1021),
    ("range_descending", 1021),
    ("range_both_ends", 1022),
    ("views", 1024),
    ("range_views", 1021),
]

# Far more seconds than any call takes, on a busy machine too.
SECONDS = 600


def run(call, kib):
    """The status of a call with a stack of so many KiB, and what it printed."""
    words = ["/bin/sh", "-c", f'ulimit -s {kib} && exec "$0"', str(CRATE / "out" / "rart_deep")]
    ended = subprocess.run(words, input=call + "\n", capture_output=True, text=True, env={}, timeout=SECONDS)
    return ended.returncode, ended.stdout


def main():
    passed, failed = (int(sys.argv[1]), int(sys.argv[2])) if len(sys.argv) == 3 else (0, 0)
    for call, number, kib in [*((call, number, KIB) for call, number in CALLS), SHORT]:
        status, printed = run(call, kib)
        if (status, printed) == (0, f"{call} {number}\n"):
            print(f"nested keys: {call} {number}: ok within {kib} KiB")
            passed += 1
        else:
            print(f"nested keys: {call}: FAILED: status {status}, {printed!r}")
            failed += 1
    status, printed = run(CALLS[0][0], LITTLE)
    is_stopped = status != 0 and not printed
    print(f"nested keys: {CALLS[0][0]}: {'stopped' if is_stopped else 'FAILED: it ends'} within {LITTLE} KiB")
    passed, failed = passed + is_stopped, failed + (not is_stopped)
    print(f"{passed} passed, {failed} failed")
    return 1 if failed else 0


if __name__ == "__main__":
    sys.exit(main())
