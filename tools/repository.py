"""What the scripts of this folder share: where the repository and the kit are, its crates, and its programs."""
from __future__ import annotations

import importlib.machinery
import importlib.util
import os
import shutil
import subprocess
import sys
import threading
from pathlib import Path
from types import ModuleType

TOP = Path(__file__).resolve().parent.parent

# A module is listed before its code has run, so two threads must not load one at the same time.
LOADING = threading.RLock()


def load(path: str | Path) -> ModuleType:
    """Loads a file as a module, also if its name has no ending."""
    sys.dont_write_bytecode = True
    loader = importlib.machinery.SourceFileLoader(Path(path).stem, str(path))
    module = importlib.util.module_from_spec(importlib.util.spec_from_loader(loader.name, loader))
    sys.modules[loader.name] = module
    loader.exec_module(module)
    return module


def load_script(name: str) -> ModuleType:
    """Loads a script of this folder as a module."""
    with LOADING:
        return sys.modules.get(name) or load(TOP / "tools" / name)


def find_kit() -> Path:
    """Returns the kit's command `rt`. The kit's other commands and its module rtlib are beside it."""
    command = shutil.which("rt")
    if command is None:
        raise SystemExit(f"{os.path.basename(sys.argv[0])}: there is no rt in PATH")
    return Path(command).resolve()


def read_crates(text: str) -> dict[str, list[str]]:
    """Returns the crates that a text lists as crates.txt does, each with the crates that its line names."""
    lines = [line.partition("#")[0].partition(":") for line in text.splitlines()]
    return {name.split()[0]: names.split() for name, colon, names in lines if colon}


def crates() -> dict[str, list[str]]:
    """Returns the crates of crates.txt, the lowest first, each with the crates that it depends on."""
    return read_crates((TOP / "crates.txt").read_text(encoding="utf-8"))


def proved_program(name: str) -> Path:
    """Returns the program of a crate, which is proved and built first if a source is newer. It is not there if that fails."""
    folder = TOP / "crates" / name
    quiet = subprocess.DEVNULL
    subprocess.run([TOP / "tools" / "kit", "run", "--"], cwd=folder, stdin=quiet, stdout=quiet, stderr=quiet, check=False)
    return folder / "out" / name


def is_current(program: Path, *folders: str) -> bool:
    """Returns whether a program is there, and not older than the crates and these folders."""
    if not os.access(program, os.X_OK):
        return False
    built = program.stat().st_mtime
    for top in ("crates", *folders):
        for at, below, names in os.walk(TOP / top):
            below[:] = [it for it in below if it != "out"]
            if any(os.lstat(os.path.join(at, name)).st_mtime > built for name in names):
                return False
    return (TOP / "crates.txt").stat().st_mtime <= built
