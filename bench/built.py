"""A small program over some of the crates, built in a copy of them without proof (rt try), and what it prints."""
import os
import shutil
import subprocess
import sys
import tempfile

from client import ROOT


def built_output(name, libraries, source, keep=False, seconds=60):
    """What a program of this name and text prints, over these libraries; where it isn't built, what was said of it ends the script."""
    folder = tempfile.mkdtemp(prefix="bench-%s-" % name)
    try:
        shutil.copytree(os.path.join(ROOT, "crates"), os.path.join(folder, "crates"), ignore=shutil.ignore_patterns("out", "must-fail"))
        shutil.copy(os.path.join(ROOT, "HANDLES"), folder)
        with open(os.path.join(ROOT, "crates.txt"), encoding="utf-8") as lines:
            crates = lines.read()
        with open(os.path.join(folder, "crates.txt"), "w", encoding="utf-8") as out:
            out.write("%s%s: %s\n" % (crates, name, " ".join(libraries)))
        crate = os.path.join(folder, "crates", name)
        os.makedirs(os.path.join(crate, "src"))
        with open(os.path.join(crate, "src", "main.rt"), "w", encoding="utf-8") as out:
            out.write(source)
        words = ["rt", "try", "--seconds", str(seconds)]
        run = subprocess.run(words, cwd=crate, capture_output=True, text=True, check=False)
        if run.returncode:
            sys.exit("the program was not built:\n" + run.stdout[-2000:] + run.stderr[-2000:])
        return run.stdout
    finally:
        if not keep:
            shutil.rmtree(folder, ignore_errors=True)
