"""Makes the wheel of liquid_core, with nothing but Python's own library.

    python3 python/build_wheel.py DIR    writes the wheel into DIR, and prints its path

It is the build backend of pyproject.toml too. If liquid_core/libliquid.so is not there, `pip install ./python` first builds
it without a proof, in some minutes; `./liquid c` proves it.
"""
from __future__ import annotations

import base64
import ctypes
import hashlib
import re
import subprocess
import sys
import zipfile
from pathlib import Path

HERE = Path(__file__).resolve().parent
TAG = "py3-none-linux_x86_64"
# The same sources make the same wheel.
MOMENT = (2026, 11, 27, 0, 0, 0)


def field(name: str) -> str:
    """Returns a text of pyproject.toml."""
    found = re.search(rf'^{name} = "(.*)"$', (HERE / "pyproject.toml").read_text(), re.M)
    if not found:
        raise SystemExit(f"pyproject.toml has no {name}")
    return found[1]


def library() -> Path:
    """Returns the shared library, which is built if it is not there."""
    built, script = HERE / "liquid_core" / "libliquid.so", HERE.parent / "c" / "build"
    if not built.exists():
        if not script.exists():
            raise SystemExit(f"{built} is not there, and can be built only in a clone of the repository: ./liquid c --unproved")
        subprocess.run([script, "unproved"], check=True)
    if not built.exists():
        raise SystemExit("the library was not built: it takes a C compiler and the Rattle kit")
    return built


def version() -> str:
    """Returns the version, which says so if the library is not proved."""
    proved = ctypes.CDLL(str(library())).liquid_proved()
    return field("version") if proved else f"{field('version')}+unproved"


def metadata() -> str:
    proof = "" if version() == field("version") else ". This build is not proved"
    return (
        "Metadata-Version: 2.1\n"
        f"Name: {field('name')}\n"
        f"Version: {version()}\n"
        f"Summary: {field('description')}{proof}\n"
        "License: MIT OR Apache-2.0\n"
        f"Requires-Python: {field('requires-python')}\n"
        "Classifier: Operating System :: POSIX :: Linux\n"
        "Classifier: Typing :: Typed\n"
        "Description-Content-Type: text/markdown\n\n" + (HERE / "README.md").read_text()
    )


def files() -> dict[str, bytes]:
    package = HERE / "liquid_core"
    paths = [*sorted(package.glob("*.py")), package / "py.typed", package / "libliquid.so"]
    packed = {f"liquid_core/{path.name}": path.read_bytes() for path in paths}
    info = f"{field('name')}-{version()}.dist-info"
    packed[f"{info}/METADATA"] = metadata().encode()
    packed[f"{info}/WHEEL"] = f"Wheel-Version: 1.0\nGenerator: liquid_core\nRoot-Is-Purelib: false\nTag: {TAG}\n".encode()
    lines = []
    for name, content in packed.items():
        digest = base64.urlsafe_b64encode(hashlib.sha256(content).digest()).rstrip(b"=").decode()
        lines.append(f"{name},sha256={digest},{len(content)}\n")
    packed[f"{info}/RECORD"] = ("".join(lines) + f"{info}/RECORD,,\n").encode()
    return packed


def build_wheel(wheel_directory: str, config_settings: object = None, metadata_directory: object = None) -> str:
    """Writes the wheel, and returns its name."""
    name = f"{field('name')}-{version()}-{TAG}.whl"
    with zipfile.ZipFile(Path(wheel_directory) / name, "w", zipfile.ZIP_DEFLATED) as wheel:
        for path, content in files().items():
            entry = zipfile.ZipInfo(path, MOMENT)
            entry.external_attr = 0o644 << 16
            entry.compress_type = zipfile.ZIP_DEFLATED
            wheel.writestr(entry, content)
    return name


if __name__ == "__main__":
    print(Path(sys.argv[1]) / build_wheel(sys.argv[1]))
