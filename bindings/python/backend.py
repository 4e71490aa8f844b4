"""Builds a wheel of the package for pip with only the standard library, so that pip needs no network.

In an unpacked or installed release, the shared library goes into the wheel beside the module."""
from __future__ import annotations

import base64
import hashlib
import platform
import re
import zipfile
from pathlib import Path

HERE = Path(__file__).resolve().parent
LIBRARY = HERE / "../../../lib/libtilvenka_pmp.so.2"
METADATA = """\
Metadata-Version: 2.1
Name: tilvenka_pmp
Version: {version}
Summary: {description}
Keywords: {keywords}
License: {license}
Requires-Python: {requires}
{classifiers}
Description-Content-Type: text/plain

{text}
"""
WHEEL = "Wheel-Version: 1.0\nGenerator: tilvenka\nRoot-Is-Purelib: {pure}\nTag: {tag}\n"
# glibc 2.14 is the newest that the library requires, and manylinux2014 has 2.17.
PLATFORM = f"manylinux2014_{platform.machine()}"


def values(name: str) -> list[str]:
    """Returns the values of this name in pyproject.toml."""
    project = (HERE / "pyproject.toml").read_text().partition("[project]")[2]
    found = re.search(rf"^{name} = (\[[^]]*\]|.*)$", project, re.M)
    assert found
    return re.findall(r'"([^"]*)"', found[1])


def said(name: str) -> str:
    return values(name)[0]


def metadata() -> str:
    """Returns what a package index shows: the project's metadata, and the package's docstring."""
    return METADATA.format(
        version=said("version"),
        description=said("description"),
        keywords=",".join(values("keywords")),
        license=said("license"),
        requires=said("requires-python"),
        classifiers="\n".join(f"Classifier: {it}" for it in values("classifiers")),
        text=(HERE / "tilvenka_pmp/__init__.py").read_text().split('"""')[1],
    )


def files_of(version: str, pure: bool, tag: str) -> dict[str, bytes]:
    info = f"tilvenka_pmp-{version}.dist-info"
    package = sorted(it for it in (HERE / "tilvenka_pmp").iterdir() if it.suffix in (".py", ".typed"))
    files = {f"tilvenka_pmp/{it.name}": it.read_bytes() for it in package}
    if not pure:
        files[f"tilvenka_pmp/{LIBRARY.name}"] = LIBRARY.read_bytes()
    files[f"{info}/METADATA"] = metadata().encode()
    files[f"{info}/WHEEL"] = WHEEL.format(pure=str(pure).lower(), tag=tag).encode()
    record = ""
    for name, data in files.items():
        digest = base64.urlsafe_b64encode(hashlib.sha256(data).digest()).rstrip(b"=").decode()
        record += f"{name},sha256={digest},{len(data)}\n"
    files[f"{info}/RECORD"] = f"{record}{info}/RECORD,,\n".encode()
    return files


def build_wheel(wheel_directory: str, config_settings: object = None, metadata_directory: object = None) -> str:
    """The hook that pip calls to build a wheel."""
    pure = not LIBRARY.is_file()
    tag = f"py3-none-{'any' if pure else PLATFORM}"
    name = f"tilvenka_pmp-{said('version')}-{tag}.whl"
    with zipfile.ZipFile(Path(wheel_directory) / name, "w", zipfile.ZIP_DEFLATED) as wheel:
        for file, data in files_of(said("version"), pure, tag).items():
            wheel.writestr(zipfile.ZipInfo(file), data)
    return name
