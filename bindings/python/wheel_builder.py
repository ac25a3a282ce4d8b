"""Builds a wheel of the package `nic82540em` with the library libnic82540em.so, for pip (PEP 517).

The setting `library` (pip install --config-settings library=FOLDER) or, without it, the environment variable
NIC82540EM_LIB names the folder of the library. If neither is set, the first of these folders with the library is taken:
lib of the release, .build/library/lib of the repository, that of `pkg-config`. The wheel has the version in
pkgconfig/nic82540em.pc of the library's folder. With the same files, the wheel has the same bytes.
"""

from __future__ import annotations

import base64
import hashlib
import os
import re
import subprocess
import zipfile
from typing import Mapping, NoReturn, Optional

NAME, FILE = "nic82540em", "libnic82540em.so"
# The modules of the package
MODULES = "__init__.py", "__main__.py", "calls.py", "server.py"
HERE = os.path.dirname(os.path.abspath(__file__))
TOP = os.path.dirname(os.path.dirname(HERE))
SUMMARY = "An Intel 82540EM and its host's memory in the process of a driver"
README = b"""\
The adapter of nicbench for tests of drivers: calls `Nic.read`, `Nic.write`, `Nic.load`, `Nic.store` and `Nic.step`, and a
class `Adapter` with the methods of the class for the pipe of `nicbench serve`.

```python
from nic82540em import Nic

with Nic() as nic:
    nic.write(0xD0, 0x80)  # IMS: unmask RXT0
    nic.write(0xC8, 0x80)  # ICS: record RXT0
    assert nic.read(0xC0) == 0x80
```

A test is a function that gets such an `Adapter`, and raises an exception if it fails. `python3 -m nic82540em --here
FILE.py:FUNCTION` runs the test once. The finder of races runs it with one schedule after another:
`nicbench-races -- python3 -m nic82540em FILE.py:FUNCTION`.
"""
# The numbers of processors in the header of an object (ELF), as names of Linux
MACHINES = {0x3E: "x86_64", 0xB7: "aarch64"}
# The class for pipes, which `python3 -m nic82540em` uses
PIPE = os.path.join(TOP, "examples", "drivers", "adapter.py")
# The first moment that a ZIP archive can hold
MOMENT = (1980, 1, 1, 0, 0, 0)


def of_pkg_config() -> str:
    """The folder of the library that `pkg-config` knows, or an empty text."""
    try:
        ran = subprocess.run(["pkg-config", "--variable=libdir", NAME], capture_output=True)
    except OSError:
        return ""
    return ran.stdout.decode().strip()


def folder_of_library(settings: Optional[Mapping[str, str]]) -> str:
    """The folder with the library. If a folder is named, the library must be in this folder."""
    named = (settings or {}).get("library") or os.environ.get("NIC82540EM_LIB")
    own = [os.path.join(TOP, "lib"), os.path.join(TOP, ".build", "library", "lib")]
    places = [place for place in ([named] if named else [*own, of_pkg_config()]) if place]
    for place in places:
        if os.path.exists(os.path.join(place, FILE)):
            return place
    raise SystemExit(f"{FILE} isn't in {' or '.join(places)}: build it by `tools/library FOLDER`, and set "
                     "NIC82540EM_LIB=FOLDER/lib")


def bytes_of(path: str) -> bytes:
    with open(path, "rb") as file:
        return file.read()


def version_of(folder: str) -> str:
    """The version of the library, as its file for pkg-config states it."""
    found = re.search(rb"^Version: (\S+)$", bytes_of(os.path.join(folder, "pkgconfig", f"{NAME}.pc")), re.M)
    assert found, f"{NAME}.pc has no version"
    return found[1].decode()


def tag_of(library: bytes) -> str:
    """The systems for which a wheel with this shared library is."""
    return f"py3-none-linux_{MACHINES[int.from_bytes(library[18:20], 'little')]}"


def record_of(files: Mapping[str, bytes], name: str) -> bytes:
    """The contents of RECORD, the last file of a wheel: all files with their checksums and sizes."""
    def line(path: str, data: bytes) -> str:
        checksum = base64.urlsafe_b64encode(hashlib.sha256(data).digest()).decode().rstrip("=")
        return f"{path},sha256={checksum},{len(data)}\n"

    return "".join([*(line(path, data) for path, data in files.items()), f"{name},,\n"]).encode()


def build_wheel(wheel_directory: str, config_settings: Optional[Mapping[str, str]] = None,
                metadata_directory: Optional[str] = None) -> str:
    """Writes the wheel, and returns its name."""
    folder = folder_of_library(config_settings)
    version = version_of(folder)
    info = f"{NAME}-{version}.dist-info"
    library = bytes_of(os.path.join(folder, FILE))
    tag = tag_of(library)
    files = {
        **{f"{NAME}/{name}": bytes_of(os.path.join(HERE, NAME, name)) for name in MODULES},
        f"{NAME}/pipe.py": bytes_of(PIPE),
        f"{NAME}/py.typed": b"",
        f"{NAME}/{FILE}": library,
        f"{info}/METADATA": f"Metadata-Version: 2.1\nName: {NAME}\nVersion: {version}\nSummary: {SUMMARY}\n"
                            "Requires-Python: >=3.8\nLicense-File: LICENSE\n"
                            "Keywords: ethernet,82540em,e1000,driver,testing,races\nClassifier: Typing :: Typed\n"
                            "Classifier: Operating System :: POSIX :: Linux\n"
                            "Classifier: Topic :: Software Development :: Testing\n"
                            "Description-Content-Type: text/markdown\n\n".encode() + README,
        f"{info}/WHEEL": f"Wheel-Version: 1.0\nGenerator: {NAME}\nRoot-Is-Purelib: false\nTag: {tag}\n".encode(),
        f"{info}/LICENSE": bytes_of(os.path.join(TOP, "LICENSE")),
    }
    files[f"{info}/RECORD"] = record_of(files, f"{info}/RECORD")
    wheel = f"{NAME}-{version}-{tag}.whl"
    with zipfile.ZipFile(os.path.join(wheel_directory, wheel), "w", zipfile.ZIP_DEFLATED) as archive:
        for path, data in files.items():
            member = zipfile.ZipInfo(path, MOMENT)
            member.external_attr = 0o644 << 16
            member.compress_type = zipfile.ZIP_DEFLATED
            archive.writestr(member, data)
    return wheel


def build_sdist(sdist_directory: str, config_settings: Optional[Mapping[str, str]] = None) -> NoReturn:
    """A source archive would lack the library."""
    raise SystemExit("build a wheel: pip wheel bindings/python")
