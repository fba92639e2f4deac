"""What the toolchain's `rt ci` has proved on this computer and kept, for checks that begin with it."""

import importlib.machinery
import importlib.util
import os
import shutil
import subprocess
import sys

import repository


def toolchain():
    """Returns the toolchain's own rt as a module, or None if the rt in PATH is another one."""
    ran = subprocess.run(["rt", "doc"], capture_output=True, text=True, check=False)
    path = f"{os.path.dirname(ran.stdout.strip())}/bin/rt"
    if ran.returncode or not os.path.isfile(path):
        return None
    loader = importlib.machinery.SourceFileLoader("rt", path)
    made = importlib.util.module_from_spec(importlib.util.spec_from_loader("rt", loader))
    loader.exec_module(made)
    return made


def give(name):
    """Gives each library below a crate what is kept of it, if it is not built, and says how many. A check proves the others itself.

    What is kept is of the very text of a library and of those below it, and no verdict of the gate rests on what is given here."""
    rt = toolchain()
    if not rt:
        return
    os.chdir(repository.TOP)
    rt.rtlib.Crate = rt.Crate
    rt.Crate.allowed = rt.handles_of(repository.TOP)
    crates = rt.rtlib.crates_below(repository.TOP)
    below = next(it for it in crates if it.name == name).below()
    libraries = [it for it in crates if it in below]
    if all(it.is_built() for it in libraries):
        return
    held = rt.rtlib.lock(libraries)
    try:
        count = given(rt, libraries)
        if count:
            print(f"{os.path.basename(sys.argv[0])}: {count} libraries are taken as rt ci proved and kept them", flush=True)
    finally:
        for it in held:
            os.close(it)


def given(rt, libraries):
    """Gives what is kept to the libraries that are not built, lowest first, and returns how many there were. Those that are built stay."""
    kept, count = rt.Kept(libraries), 0
    for it in libraries:
        if not it.is_built():
            # rt drops what it has kept if a file of it is there already.
            shutil.rmtree(f"{it.folder}/out/rlib", ignore_errors=True)
            os.makedirs(f"{it.folder}/out/rlib")
            if not kept.give(it, False, kept.key(it)):
                continue
            with open(f"{it.folder}/out/rlib/stamp", "w", encoding="utf-8") as stamp:
                stamp.write(it.stamp())
            count += 1
        kept.is_built(it)
    return count
