"""Builds the wheel of `xrs`, with nothing but Python's own library, so that `pip install ./python` needs no network.

The wheel carries the shared library libxrs.so.0. Where that is looked for: in the folder that XRS_LIB_DIR names; in the repository around
this folder, where `./package` leaves it; where pkg-config finds an installed package. Its version is that of the library's header.
"""

from __future__ import annotations

import base64
import hashlib
import os
import re
import subprocess
import sys
import zipfile
from pathlib import Path

HERE = Path(__file__).resolve().parent
LIBRARY = "libxrs.so.0"
TAG = "py3-none-linux_x86_64"
MISSING = f"""xrs: the shared library {LIBRARY} is missing.
    In the repository run ./package, which proves and builds it.
    Elsewhere set XRS_LIB_DIR to the folder that has it, or PKG_CONFIG_PATH to the one that has xrs.pc."""


class UnsupportedOperation(Exception):
    """What a front end is told that wants a source archive."""


def installed() -> list[Path]:
    """The folder of an installed library, if pkg-config knows one."""
    try:
        said = subprocess.run(["pkg-config", "--variable=libdir", "xrs"], capture_output=True, text=True, check=False)
    except OSError:
        return []
    return [Path(said.stdout.strip())] if said.returncode == 0 and said.stdout.strip() else []


def find_library() -> Path:
    """The shared library that goes into the wheel."""
    named = os.environ.get("XRS_LIB_DIR")
    folders = [Path(named)] if named else [HERE.parent / "target/package/lib", *installed()]
    for folder in folders:
        if (folder / LIBRARY).is_file():
            return folder / LIBRARY
    looked = "".join(f"\n    {folder / LIBRARY} does not exist." for folder in folders)
    sys.exit(MISSING + looked)


def version(library: Path) -> str:
    """The version in the header that was installed with the library, or else in the repository's."""
    for header in (library.parent.parent / "include/xrs.h", HERE.parent / "include/xrs.h"):
        if header.is_file():
            found = re.search(r'^#define XRS_VERSION "(.*)"$', header.read_text(encoding="utf-8"), re.M)
            if found:
                return found[1]
    sys.exit(f"xrs: no header xrs.h with XRS_VERSION belongs to {library}.")


def metadata(number: str) -> str:
    """What pip shows of the package."""
    return (
        f"Metadata-Version: 2.1\nName: xrs\nVersion: {number}\n"
        "Summary: Calls of the proved library for the five times extended Reed-Solomon code\n"
        "License: MIT\nRequires-Python: >=3.9\n"
        "Classifier: Operating System :: POSIX :: Linux\n"
        "Classifier: Programming Language :: Python :: Implementation :: CPython\nClassifier: Typing :: Typed\n"
    )


def contents(library: Path, number: str) -> dict[str, bytes]:
    """The files of the wheel by their names, but for the record of them."""
    information = f"xrs-{number}.dist-info"
    files = {f"xrs/{path.name}": path.read_bytes() for path in sorted((HERE / "xrs").iterdir()) if path.suffix in (".py", ".typed")}
    files[f"xrs/{LIBRARY}"] = library.read_bytes()
    files[f"{information}/METADATA"] = metadata(number).encode()
    files[f"{information}/WHEEL"] = f"Wheel-Version: 1.0\nGenerator: xrs\nRoot-Is-Purelib: false\nTag: {TAG}\n".encode()
    licence = HERE.parent / "LICENSE"
    if licence.is_file():
        files[f"{information}/LICENSE"] = licence.read_bytes()
    return files


def record(files: dict[str, bytes], name: str) -> bytes:
    """The list of the files with their sums, which has a line for itself."""

    def line(path: str, content: bytes) -> str:
        digest = base64.urlsafe_b64encode(hashlib.sha256(content).digest()).rstrip(b"=").decode()
        return f"{path},sha256={digest},{len(content)}\n"

    return ("".join(line(path, content) for path, content in files.items()) + f"{name},,\n").encode()


def build_wheel(wheel_directory: str, config_settings: object = None, metadata_directory: object = None) -> str:
    """Writes the wheel into the folder and gives its name."""
    library = find_library()
    number = version(library)
    files = contents(library, number)
    listed = f"xrs-{number}.dist-info/RECORD"
    files[listed] = record(files, listed)
    name = f"xrs-{number}-{TAG}.whl"
    with zipfile.ZipFile(os.path.join(wheel_directory, name), "w", zipfile.ZIP_DEFLATED) as wheel:
        for path, content in files.items():
            entry = zipfile.ZipInfo(path)  # dated 1980, so that equal files make an equal wheel
            entry.external_attr = 0o644 << 16
            entry.compress_type = zipfile.ZIP_DEFLATED
            wheel.writestr(entry, content)
    return name


def build_sdist(sdist_directory: str, config_settings: object = None) -> str:
    """There is no source archive: the library is proved and built in the repository."""
    raise UnsupportedOperation("xrs is installed from the repository: pip install ./python")
