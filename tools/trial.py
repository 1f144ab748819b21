"""What the checks of this folder share: the program, a folder to run it in, and what was not as expected."""

import os
import pathlib
import shutil
import subprocess
import sys
import tempfile

from command_table import TOP

PROGRAM = TOP / "crates" / "svo_cli" / "out" / "svo_cli"
# The exit status of a check that was left out, as of automake's tests.
SKIPPED = 77
faults = []


def skip(why):
    """Ends the check, since it cannot be made here."""
    print(f"skipped: {why}")
    sys.exit(SKIPPED)


def need(*tools):
    """The places of these tools; where one is missing the check is left out."""
    missing = [it for it in tools if not shutil.which(it)]
    if missing:
        skip(f"there is no {missing[0]} here")


def expect(what, got, wanted):
    """Keeps in mind what is not as it should be."""
    if got != wanted:
        faults.append(what)
        print(f"{what}: got {got!r}, and not {wanted!r}")


def finish():
    """Ends the check: with 1 where something was not as expected."""
    sys.exit(1 if faults else 0)


def run(words, given=b"", folder=None, program=PROGRAM):
    """The status, output and error text of a run of the program."""
    ran = subprocess.run([program, *words], input=given, capture_output=True, cwd=folder, timeout=120)
    return ran.returncode, ran.stdout, ran.stderr.decode()


def good(words, given=b"", folder=None):
    """The output of a run that ends well."""
    status, out, err = run(words, given, folder)
    if status:
        raise SystemExit(f"{' '.join(words)} ended with {status}: {err}")
    return out


class Folder:
    """An empty folder, with a link to the examples in it."""

    def __enter__(self):
        self.made = tempfile.TemporaryDirectory(prefix="svo-check-")
        path = pathlib.Path(self.made.name)
        os.symlink(TOP / "examples", path / "examples")
        return path

    def __exit__(self, *_):
        shutil.rmtree(self.made.name, ignore_errors=True)


def example(name):
    return (TOP / "examples" / name).read_bytes()


def two_cells(folder):
    """Puts two.svo, a node file of depth 1, into the folder."""
    made = good(["build", "--depth", "1", "--origin=0,0,0", "--cell", "1"], example("triangle.ply"), folder)
    (folder / "two.svo").write_bytes(made)
