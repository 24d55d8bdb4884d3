#!/usr/bin/env python3
"""Builds the wheel: the build backend of pyproject.toml, and for clients/packaging/package a program:
clients/python/backend.py FOLDER writes the wheel there and prints its name. It exits with 77 if
clients/python/build does."""

import base64
import hashlib
import os
import pathlib
import re
import subprocess
import sys
import sysconfig
import tempfile
import zipfile
from typing import Dict, Optional

HERE = pathlib.Path(__file__).resolve().parent
VERSION = (HERE.parents[1] / "VERSION").read_text(encoding="utf-8").strip()
INFO = f"fotsevindre-{VERSION}.dist-info"


def platform(module: pathlib.Path) -> str:
    """Returns the oldest platform that has the symbols that a module takes from the system's libraries, if objdump can
    tell, or else this one."""
    here = re.sub(r"[-.]", "_", sysconfig.get_platform())
    try:
        symbols = subprocess.run(["objdump", "-T", module], capture_output=True, text=True, check=True).stdout
    except (OSError, subprocess.CalledProcessError):
        return here
    versions = [[int(part) for part in version.split(".")] for version in re.findall(r"\(GLIBC_([0-9.]+)\)", symbols)]
    return here.replace("linux_", "manylinux_2_17_") if versions and max(versions) <= [2, 17] else here


def describe(folder: pathlib.Path, tag: str) -> None:
    """Writes what a wheel says about itself."""
    (folder / INFO).mkdir()
    (folder / INFO / "METADATA").write_text(
        f"Metadata-Version: 2.1\nName: fotsevindre\nVersion: {VERSION}\n"
        "Summary: Dates, times, durations, months, working days and recurrences, proved\nRequires-Python: >=3.10\n"
    )
    (folder / INFO / "WHEEL").write_text(
        f"Wheel-Version: 1.0\nGenerator: fotsevindre {VERSION}\nRoot-Is-Purelib: false\nTag: {tag}\n"
    )


def pack(folder: pathlib.Path, path: pathlib.Path) -> None:
    """Packs a folder as a wheel with reproducible bytes."""
    lines = []
    with zipfile.ZipFile(path, "w", zipfile.ZIP_DEFLATED) as wheel:

        def add(name: str, data: bytes) -> None:
            entry = zipfile.ZipInfo(name, (2000, 1, 1, 0, 0, 0))
            entry.compress_type = zipfile.ZIP_DEFLATED
            entry.external_attr = 0o100644 << 16
            wheel.writestr(entry, data)

        for file in sorted(file for file in folder.rglob("*") if file.is_file()):
            name, data = file.relative_to(folder).as_posix(), file.read_bytes()
            add(name, data)
            digest = base64.urlsafe_b64encode(hashlib.sha256(data).digest()).rstrip(b"=").decode()
            lines.append(f"{name},sha256={digest},{len(data)}\n")
        add(f"{INFO}/RECORD", f"{''.join(lines)}{INFO}/RECORD,,\n".encode())


def build_wheel(wheel_directory: str, config_settings: Optional[Dict[str, str]] = None, metadata_directory: Optional[str] = None) -> str:
    """Builds the package and its wheel, for this interpreter's system and all later versions of Python."""
    with tempfile.TemporaryDirectory() as work:
        folder = pathlib.Path(work)
        # pip shows the output if this fails.
        status = subprocess.run([HERE / "build", folder], env={**os.environ, "PYTHON": sys.executable}).returncode
        if status:
            sys.exit(status)
        tag = f"cp310-abi3-{platform(folder / 'fotsevindre/_core.abi3.so')}"
        describe(folder, tag)
        name = f"fotsevindre-{VERSION}-{tag}.whl"
        pack(folder, pathlib.Path(wheel_directory) / name)
        return name


if __name__ == "__main__":
    print(build_wheel(sys.argv[1]))
