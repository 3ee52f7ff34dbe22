#!/usr/bin/env python3
"""Exports the map into an empty repository by ./export, and runs README's program there, unproved.

usage: exported_program.py [PASSED FAILED]

The program is that of crates/rart_first, in a crate of another name that lists `rart` alone. Then come calls of
./export that it must refuse, each with its status and its line on standard error.

PASSED and FAILED are the counts of the step before, 0 if not given. The last line adds to them.
"""
import pathlib
import shutil
import subprocess
import sys
import tempfile

sys.dont_write_bytecode = True

TOP = pathlib.Path(__file__).resolve().parents[1]

# Far more seconds than the compiler takes, on a busy machine too.
SECONDS = 1800

PRINTED = "catalogue: word 2\nbegins with cat: word 1\nbegins with cat: word 2\n"


def export(*words):
    """The status of ./export, what it printed, and the first line of what it said."""
    done = subprocess.run([TOP / "export", *words], capture_output=True, text=True, timeout=SECONDS, check=False)
    return done.returncode, done.stdout, done.stderr.partition("\n")[0]


def program_fault(folder):
    """Why README's program doesn't run in an empty repository, or nothing."""
    status, lines, said = export(folder)
    if status:
        return f"./export ended with {status}: {said}"
    shutil.copy(TOP / "HANDLES", folder)
    (folder / "crates.txt").write_text(f"{lines}words: rart\n")
    shutil.copytree(TOP / "crates" / "rart_first" / "src", folder / "crates" / "words" / "src")
    done = subprocess.run(
        ["rt", "try"], cwd=folder / "crates" / "words", stdin=subprocess.DEVNULL, capture_output=True, text=True,
        timeout=SECONDS, check=False,
    )
    return "" if done.stdout == PRINTED else f"it printed {done.stdout!r}, and said {done.stderr[-400:]!r}"


def refusals(folder):
    """Calls that ./export must refuse, and what each must say."""
    exists = folder / "crates" / "rart_keys"
    return (
        ((), "export: it takes the folder of a repository, and rart_cidr for the tables of networks"),
        ((folder,), f"export: {exists} exists; remove it first"),
        ((folder / "none",), f"export: no folder {folder / 'none'}"),
        ((folder, "rart_script"), "export: no crate rart_script: rart or rart_cidr"),
        ((folder, "rart", "rart_cidr"), "export: it takes a folder and one crate at most"),
    )


def main():
    passed, failed = (int(sys.argv[1]), int(sys.argv[2])) if len(sys.argv) == 3 else (0, 0)
    with tempfile.TemporaryDirectory(prefix="exported-") as scratch:
        folder = pathlib.Path(scratch)
        faults = [("README's program in an empty repository", program_fault(folder))]
        for words, wanted in refusals(folder):
            found = export(*words)
            why = "" if found == (2, "", wanted) else f"status, output and first line are {found}"
            faults.append((f"./export with {len(words)} words, refused", why))
    for what, why in faults:
        print(f"export: {what}: {'FAILED: ' + why if why else 'ok'}")
        passed, failed = passed + (not why), failed + bool(why)
    print(f"{passed} passed, {failed} failed")
    return 1 if failed else 0


if __name__ == "__main__":
    sys.exit(main())
