#!/usr/bin/env python3
"""Writes a wheel, which pip installs without a compiler and without a network. The same sources give the same bytes.

    make_wheel.py LIBRARY FOLDER

LIBRARY is the shared library that goes into it, and FOLDER gets the wheel. Its name claims manylinux2014, so the library may ask for no
symbol of the C library that is newer than glibc 2.17, and for no other library: both are checked."""
import base64
import hashlib
import pathlib
import re
import subprocess
import sys
import zipfile

HERE = pathlib.Path(__file__).resolve().parent
PACKAGE = HERE / "deno_semver"
NAME, TAG = "deno_semver", "py3-none-manylinux2014_x86_64"
VERSION = re.search(r'__version__ = "(.*)"', (PACKAGE / "__init__.py").read_text()).group(1)
LICENSES = [HERE.parents[1] / name for name in ("LICENSE", "packaging/THIRD-PARTY")]
OLDEST = (2, 17)
SHARED = {"libc.so.6"}

METADATA = f"""Metadata-Version: 2.4
Name: deno-semver
Version: {VERSION}
Summary: Versions and version ranges of npm and JSR packages, parsed and matched as Deno does, by proved code
Project-URL: Repository, https://nuscheddia.example/deno_semver
License-Expression: MIT AND Unicode-3.0
License-File: LICENSE
License-File: THIRD-PARTY
Keywords: semver,version,range,npm,jsr,deno
Requires-Python: >=3.8
Classifier: Development Status :: 4 - Beta
Classifier: Operating System :: POSIX :: Linux
Classifier: Programming Language :: Python :: 3
Classifier: Typing :: Typed
Description-Content-Type: text/markdown

"""

WHEEL = f"Wheel-Version: 1.0\nGenerator: make_wheel\nRoot-Is-Purelib: false\nTag: {TAG}\n"


def printed(*command):
    return subprocess.run(command, capture_output=True, text=True, check=True).stdout


def check(library):
    """Stops unless the library runs where manylinux2014 does."""
    symbols = printed("objdump", "-T", library)
    versions = [tuple(map(int, version.split("."))) for version in re.findall(r"GLIBC_([0-9.]+)", symbols)]
    if versions and max(versions) > OLDEST:
        sys.exit(f"{library} needs glibc {'.'.join(map(str, max(versions)))}, and manylinux2014 has {'.'.join(map(str, OLDEST))}")
    others = set(re.findall(r"NEEDED +(\S+)", printed("objdump", "-p", library))) - SHARED
    if others:
        sys.exit(f"{library} needs {', '.join(sorted(others))}")


def digest(data):
    return "sha256=" + base64.urlsafe_b64encode(hashlib.sha256(data).digest()).rstrip(b"=").decode()


def files_of(library):
    info = f"{NAME}-{VERSION}.dist-info"
    sources = sorted(path for path in PACKAGE.iterdir() if path.suffix == ".py" or path.name == "py.typed")
    files = {f"{NAME}/{path.name}": path.read_bytes() for path in sources}
    files[f"{NAME}/libdeno_semver.so.0"] = library.read_bytes()
    # What a link of the page leads to isn't in the wheel.
    page = re.sub(r"\[([^\]]*)\]\(\.\.[^)]*\)", r"\1", (HERE / "README.md").read_text())
    files[f"{info}/METADATA"] = METADATA.encode() + page.encode()
    for path in LICENSES:
        files[f"{info}/licenses/{path.name}"] = path.read_bytes()
    files[f"{info}/WHEEL"] = WHEEL.encode()
    record = "".join(f"{name},{digest(data)},{len(data)}\n" for name, data in files.items())
    files[f"{info}/RECORD"] = f"{record}{info}/RECORD,,\n".encode()
    return files


def main(library, folder):
    check(library)
    wheel = pathlib.Path(folder) / f"{NAME}-{VERSION}-{TAG}.whl"
    with zipfile.ZipFile(wheel, "w", zipfile.ZIP_DEFLATED) as archive:
        for name, data in files_of(pathlib.Path(library)).items():
            entry = zipfile.ZipInfo(name, (1980, 1, 1, 0, 0, 0))
            entry.external_attr, entry.compress_type = 0o644 << 16, zipfile.ZIP_DEFLATED
            archive.writestr(entry, data)
    print(wheel)


main(*sys.argv[1:])
