"""Lines of a page with what they answer: runs them and compares, in whatever order the two streams come.

A block of lines is begun by ```sh, or by ```sh TOOL .. if it needs tools; it is left out where one is missing. Each
line below a line with $ is what that one answers."""

import os
import re
import shutil
import subprocess

from command_table import TOP
from trial import expect


def blocks(text):
    """Each block: the tools that it needs, and its lines with what they answer."""
    for tools, body in re.findall(r"^```sh ?([^\n]*)\n(.*?)^```", text, re.M | re.S):
        parts = re.split(r"^\$ ", body, flags=re.M)[1:]
        yield tools.split(), [it.partition("\n")[::2] for it in parts]


def answer(line, folder):
    """What a line puts out, on both streams."""
    path = f"{folder}/bin:{os.environ['PATH']}"
    ran = subprocess.run(["bash", "-c", line], stdout=subprocess.PIPE, stderr=subprocess.STDOUT, stdin=subprocess.DEVNULL, text=True, cwd=folder, env={**os.environ, "PATH": path}, timeout=120)
    return ran.stdout


def is_there(tool):
    """Whether a program, or a module of Python that is named python:NAME, is there."""
    if tool.startswith("python:"):
        return subprocess.run(["python3", "-c", f"import {tool[7:]}"], capture_output=True).returncode == 0
    return bool(shutil.which(tool))


def try_page(page, folder):
    """Runs the lines of a page in a folder with the checkout's examples, readers and launcher."""
    (folder / "bin").mkdir()
    (folder / "bin" / "svo").symlink_to(TOP / "svo")
    (folder / "svo").symlink_to(TOP / "svo")
    (folder / "readers").symlink_to(TOP / "readers")
    # The octree of README's first lines, which the lines of several tools read.
    answer("svo build --depth 7 --fit --decimals 2 < examples/house.ply > house.svo", folder)
    lacking = set()
    for tools, lines in blocks((TOP / page).read_text()):
        missing = [it for it in tools if not is_there(it)]
        lacking.update(missing)
        if not missing:
            for line, said in lines:
                expect(line, sorted(answer(line, folder).splitlines()), sorted(said.splitlines()))
    if lacking:
        print(f"in part: there is no {', '.join(sorted(lacking))} here")
