"""The proved libraries that `tools/ci` keeps, for toolchains whose own `rt ci` keeps nothing from one run to the next.

What a proof of a crate made lies in a folder that is named after the sum of the toolchain's name, of the crate's files, and of the sums of
the crates below it. So a library is found again only for the same files over the same libraries."""

import contextlib
import hashlib
import importlib.machinery
import importlib.util
import os
import shutil
import sys
import tempfile

STORE = f"{os.environ.get('XDG_CACHE_HOME') or os.path.expanduser('~/.cache')}/elim/proofs"


def load_rt():
    """Loads the toolchain's command rt as a module."""
    command = shutil.which("rt")
    if not command:
        sys.exit("the command rt of the Rattle toolchain is not on the path")
    loader = importlib.machinery.SourceFileLoader("rt", os.path.realpath(command))
    module = importlib.util.module_from_spec(importlib.util.spec_from_loader("rt", loader))
    loader.exec_module(module)
    return module


def keeps_by_itself(rt):
    """Returns whether the toolchain keeps what `rt ci` proved."""
    return hasattr(rt, "own_sum")


class Sums:
    """The sums of crates, each of which is computed once."""

    def __init__(self, rt):
        self.rt, self.known = rt, {}
        with open(f"{rt.KIT}/KIT-ID", "rb") as file:
            self.kit = file.read()

    def of(self, crate):
        if crate.folder not in self.known:
            self.known[crate.folder] = self.anew(crate)
        return self.known[crate.folder]

    def anew(self, crate):
        made = hashlib.sha256(self.kit)
        made.update(repr((crate.name, sorted(crate.of_kit))).encode())
        for path in sorted(self.rt.rtlib.files_of(crate.folder)):
            inside = os.path.relpath(path, crate.folder)
            if inside.split("/")[0] not in ("out", "must-fail"):
                with open(path, "rb") as file:
                    made.update(repr((inside, file.read())).encode())
        made.update(repr(sorted((it.name, self.of(it)) for it in crate.deps)).encode())
        return made.hexdigest()[:32]

    def folder(self, crate, part):
        """Returns the folder of what the proof of the crate, or of its tests, made."""
        return f"{STORE}/{part}-{crate.name}-{self.of(crate)}"


def put(folder, out, names):
    """Keeps those of the names that lie in `out`."""
    if os.path.isdir(folder):
        return
    os.makedirs(STORE, exist_ok=True)
    room = tempfile.mkdtemp(prefix="new-", dir=STORE)
    for name in names:
        if os.path.isdir(f"{out}/{name}"):
            shutil.copytree(f"{out}/{name}", f"{room}/{name}")
        elif os.path.isfile(f"{out}/{name}"):
            shutil.copy2(f"{out}/{name}", f"{room}/{name}")
    with contextlib.suppress(OSError):
        os.rename(room, folder)
    shutil.rmtree(room, ignore_errors=True)


def take(folder, out):
    """Puts what is kept into `out`, and returns whether it is there."""
    if not os.path.isdir(folder):
        return False
    os.makedirs(out, exist_ok=True)
    for name in os.listdir(folder):
        if os.path.isdir(f"{folder}/{name}"):
            shutil.rmtree(f"{out}/{name}", ignore_errors=True)
            shutil.copytree(f"{folder}/{name}", f"{out}/{name}")
        else:
            shutil.copy2(f"{folder}/{name}", f"{out}/{name}")
    return True
