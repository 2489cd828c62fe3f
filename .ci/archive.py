"""Builds a static library over the libraries that `rt ci` left in the tree, since rt ci proves it, and builds none.

    python3 .ci/archive.py NAME

The toolchain's `rattle build` proves the crate once more on the way, and builds nothing that isn't proved.
"""

import subprocess
import sys
from pathlib import Path


def libraries(name):
    """The libraries that a crate uses, each with whether it is a crate of this repository."""
    lines = [line for line in Path("crates.txt").read_text().splitlines() if line and not line.startswith("#")]
    listed = {line.split(":")[0].split()[0]: line.split(":")[1].split() for line in lines}
    return [("std", False)] + [(it, it in listed) for it in listed[name]]


def words(name, kit):
    """The words by which `rt` has a library of this name built, over those that stand there."""
    said = ["--crate-name", name, "src/lib.rt", "--crate-type", "staticlib", "-L", f"dependency={kit}/rlibs"]
    for library, is_own in libraries(name):
        folder = Path("crates", library, "out/rlib").resolve() if is_own else kit / "rlibs"
        said += ["--extern", f"{library}={folder}/{library}.rlib", *(["-L", f"dependency={folder}"] if is_own else [])]
    logic = ["--antt-project", f"{kit}/rattle/logic/antt-project.json", "--logic-built", f"{kit}/logic_built"]
    return [*said, *logic, "--toolchain", f"{kit}/toolchain", "--backend", "llvm", "-o", f"out/lib{name}.a"]


def main(name):
    kit = Path(subprocess.run(["rt", "doc"], stdout=subprocess.PIPE, text=True, check=True).stdout.strip()).resolve().parent
    folder = Path("crates", name)
    (folder / "out").mkdir(exist_ok=True)
    return subprocess.run([kit / "bin/rattle", "build", *words(name, kit)], cwd=folder).returncode


if __name__ == "__main__":
    sys.exit(main(sys.argv[1]))
