#!/usr/bin/env python3
"""Writes how Python, Rust and semver.wasm declare the C calls, from the exports of crates/semver_c/src/lib.rt, whose signatures the proofs
are about: bindings/python/deno_semver/_table.py, bindings/rust/src/externs.rs and bindings/js/wasm/exports.h.

    bindings/declarations.py [--check]

The prototypes of bindings/c/semver.h are written by hand, and must be those of the exports, too. Each that differs is printed, and the
status is 1 then. With --check nothing is written, and each declaration that differs in the other files is printed as well."""
import re
import sys
from dataclasses import dataclass
from pathlib import Path
from typing import Optional, Tuple

TOP = Path(__file__).resolve().parents[1]
EXPORTS = TOP / "crates/semver_c/src/lib.rt"
HEADER = TOP / "bindings/c/semver.h"
PYTHON = TOP / "bindings/python/deno_semver/_table.py"
RUST = TOP / "bindings/rust/src/externs.rs"
WASM = TOP / "bindings/js/wasm/exports.h"

EXPORT = re.compile(r'^pub extern "C" fn (\w+)\(([^)]*)\)(?: -> (\w+))?', re.M)
# A declaration in each file: its name is the group.
PATTERNS = {
    HEADER: re.compile(r"^\w+ (semver_\w+)\([^;]*;", re.M),
    PYTHON: re.compile(r'^    "(\w+)": .*', re.M),
    RUST: re.compile(r"^    fn (\w+)\([^;]*;", re.M),
    WASM: re.compile(r"^EXPORT\(\w+, (\w+)\)[^}]*\}", re.M),
}


@dataclass(frozen=True)
class Kind:
    """How a parameter is passed by C, by ctypes and by Rust; {0} is its name. In semver.wasm, what JavaScript gives for it, and what the C
    code passes on, unless that is written by hand; {1} is where a text begins."""

    c: str
    ctypes: str
    rust: str
    taken: str = ""
    passed: Optional[str] = None


def handle(c, rust, passed=None):
    """The kinds of a handle that is only asked, and of one that is written."""
    asked = Kind(f"const {c} *{{0}}", "HANDLE", f"{{0}}: &{rust}", "address {0}", passed)
    return asked, Kind(f"{c} *{{0}}", "HANDLE", f"{{0}}: &mut {rust}")


# The kinds by the types of lib.rt.
KINDS = {
    "u32": Kind("uint32_t {0}", "c_uint32", "{0}: u32", "uint32_t {0}", "{0}"),
    "u64": Kind("uint64_t {0}", "c_uint64", "{0}: u64"),
    "usize": Kind("size_t {0}", "c_size_t", "{0}: usize"),
    "&[u8]": Kind("const char *{0}, size_t {0}_len", "*TEXT", "{0}: &str", "uint32_t {0}_len", "TEXT({1}, {0}_len)"),
    "&mut [u8]": Kind("char *{0}, size_t {0}_len", "*TEXT", "{0}: &mut [u8]", passed="OUT"),
    "&mut [i8]": Kind("int8_t *{0}, size_t {0}_len", "*ANSWERS", "{0}: &mut [i8]", passed="ANSWERS"),
    "&mut [u64]": Kind("uint64_t *{0}, size_t {0}_len", "*NUMBERS", "{0}: &mut [u64]"),
    "&mut [usize]": Kind("size_t *{0}, size_t {0}_len", "*PLACES", "{0}: &mut [usize]"),
    "&mut usize": Kind("size_t *{0}", "SIZE", "{0}: &mut usize", passed="&{0}"),
}
HANDLES = {
    "&mut RequirementHandle": handle("semver_req", "Requirement", "RANGE({0})"),
    "&mut VersionHandle": handle("semver_ver", "VersionHandle"),
    "&mut VersionListHandle": handle("semver_list", "Versions", "LIST({0})"),
    "&mut ScansHandle": handle("semver_scans", "Scans"),
}
# Results: C's, and that of ctypes.
RESULTS = {"i32": ("int32_t", "c_int32"), "u32": ("uint32_t", "c_uint32"), "": ("void", "None")}
# Exports of semver.wasm that no JavaScript asks for.
LEFT_OUT = ("is_tag", "range_order", "ranges")
# Calls that no Rust asks for. rustc warns of others that nothing uses.
NOT_IN_RUST = (
    "api", "common", "compare", "export_name", "fits", "intersects", "package_read", "req_is_tag",
    "req_normal", "req_text", "version_parts", "version_text",
)


@dataclass(frozen=True)
class Call:
    """An export of lib.rt: its parameters are pairs of a name and a kind."""

    name: str
    parameters: Tuple[Tuple[str, Kind], ...]
    result: str

    @property
    def short(self):
        return self.name.removeprefix("semver_")

    def prototype(self):
        parameters = ", ".join(kind.c.format(name) for name, kind in self.parameters)
        return f"{RESULTS[self.result][0]} {self.name}({parameters or 'void'});"

    def row(self):
        """The call in Python's table: what it returns, and then its arguments."""
        types = [RESULTS[self.result][1], *(kind.ctypes for _, kind in self.parameters)]
        return f'    "{self.short}": ({", ".join(types)}{"," * (len(types) == 1)}),'

    def rust(self):
        """The call in Rust."""
        parameters = ", ".join(kind.rust.format(name) for name, kind in self.parameters)
        return f"    fn {self.name}({parameters}){self.result and f' -> {self.result}'};"

    def is_made(self):
        """Whether semver.wasm has an export for this call that isn't written by hand."""
        return self.result == "i32" and all(kind.passed for _, kind in self.parameters) and self.exported() not in LEFT_OUT

    def exported(self):
        """The name in semver.wasm, which calls a requirement a range."""
        return re.sub(r"^req_", "range_", self.short)

    def export(self):
        """The function in semver.wasm. The texts stand one behind another."""
        passed, begin = [], "0"
        for name, kind in self.parameters:
            passed.append(kind.passed.format(name, begin))
            if "{1}" in kind.passed:
                begin = f"{name}_len" if begin == "0" else f"{begin} + {name}_len"
        taken = ", ".join(kind.taken.format(name) for name, kind in self.parameters if kind.taken)
        call = f"{self.name}({', '.join(passed)})"
        body = f"WRITES({call})" if "&needed" in passed else f"return {call}"
        return f"EXPORT(int32_t, {self.exported()})({taken}) {{\n    {body};\n}}"


def kind_of(name, written, is_last):
    """The kind of a parameter of this type, of the call of this name. Calls that end in _read and _free write their last handle."""
    if written in HANDLES:
        asked, changed = HANDLES[written]
        return changed if is_last and name.endswith(("_read", "_free")) else asked
    if written in KINDS:
        return KINDS[written]
    sys.exit(f"declarations.py: {name} has a parameter of the type {written}, of which no kind is known")


def calls():
    """The exports, in their order."""
    text = EXPORTS.read_text()
    found = EXPORT.findall(text)
    if len(found) != text.count("no_mangle"):
        sys.exit(f"declarations.py: {len(found)} exports have a form that is known, and {EXPORTS} has {text.count('no_mangle')}")
    made = []
    for name, written, result in found:
        if result not in RESULTS:
            sys.exit(f"declarations.py: {name} returns {result}, of which no kind is known")
        pairs = [it.strip().split(": ") for it in written.split(",") if it.strip()]
        last = max((at for at, (_, kind) in enumerate(pairs) if kind in HANDLES), default=None)
        parameters = tuple((it, kind_of(name, kind, at == last)) for at, (it, kind) in enumerate(pairs) if kind != "Global")
        made.append(Call(name, parameters, result))
    return made


MADE = "Made by bindings/declarations.py from the exports of crates/semver_c/src/lib.rt"

PYTHON_HEAD = f'''"""The C calls, for ctypes: what each returns, and what it takes.

{MADE}."""

from __future__ import annotations

from ctypes import POINTER, Structure, c_char_p, c_int8, c_int32, c_size_t, c_uint32, c_uint64, c_void_p
from typing import Any, Dict, Tuple


class Handle(Structure):
    """A value that the library holds, or none."""

    _fields_ = [("at", c_void_p)]


TEXT = (c_char_p, c_size_t)
ANSWERS = (POINTER(c_int8), c_size_t)
NUMBERS = (POINTER(c_uint64), c_size_t)
PLACES = (POINTER(c_size_t), c_size_t)
SIZE = POINTER(c_size_t)
HANDLE = POINTER(Handle)

TABLE: Dict[str, Tuple[Any, ...]] = {{
'''

RUST_HEAD = f"""//! The C calls as safe functions. {MADE}.

use crate::raw::{{calls, Requirement, Scans, VersionHandle, Versions}};

calls! {{
"""


def made(exports):
    """The text of each file that is made."""
    rows = "".join(f"{it.row()}\n" for it in exports)
    rust = "".join(f"{it.rust()}\n" for it in exports if it.short not in NOT_IN_RUST)
    wasm = "".join(f"\n{it.export()}\n" for it in exports if it.is_made())
    return {PYTHON: f"{PYTHON_HEAD}{rows}}}\n", RUST: f"{RUST_HEAD}{rust}}}\n", WASM: f"/* {MADE}. */\n{wasm}"}


def declared(path, text):
    """The declarations of a file, with single blanks, by their names."""
    code = re.sub(r"/\*.*?\*/", "", text, flags=re.S)
    return {it[1]: " ".join(it[0].split()) for it in PATTERNS[path].finditer(code)}


def faults(path, found, wanted):
    """What is wrong with the declarations of a file."""
    for name in dict.fromkeys([*wanted, *found]):
        if name not in found:
            yield f"{path} has no {name}, which must be\n  {wanted[name]}"
        elif name not in wanted:
            yield f"{path} has {name}, which no export of {EXPORTS} is"
        elif found[name] != wanted[name]:
            yield f"{path} has {name} as\n  {found[name]}\nand it must be\n  {wanted[name]}"


def faults_of_header(exports):
    wanted = {it.name: it.prototype() for it in exports}
    return list(faults(HEADER, declared(HEADER, HEADER.read_text()), wanted))


def faults_of_made(path, text):
    """What is wrong with a file that is to have this text."""
    present = path.read_text() if path.exists() else ""
    found = list(faults(path, declared(path, present), declared(path, text)))
    return found or [f"{path} isn't what bindings/declarations.py writes"] * (present != text)


def main():
    if sys.argv[1:] not in ([], ["--check"]):
        sys.exit("usage: declarations.py [--check]")
    exports = calls()
    found = faults_of_header(exports)
    for path, text in made(exports).items():
        if sys.argv[1:]:
            found += faults_of_made(path, text)
        else:
            path.write_text(text)
    print(*(it.replace(f"{TOP}/", "") for it in found), sep="\n", end="\n" * bool(found), file=sys.stderr)
    return bool(found)


if __name__ == "__main__":
    sys.exit(main())
