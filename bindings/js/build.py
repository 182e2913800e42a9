#!/usr/bin/env python3
"""Builds semver.wasm and the npm package over it: bindings/js/out/package.

    bindings/js/build.py

semver.wasm is the LLVM module of the proved C library, compiled for another target. The module gets the layout and the name of
wasm64, which has addresses of 64 bits too; the kit's clang compiles and links it with a heap; and wasm-opt of binaryen makes the
addresses 32 bits, since hosts that are older than 2024 have no others. It needs `apt-get install binaryen`."""
import pathlib
import re
import shutil
import subprocess
import sys

HERE = pathlib.Path(__file__).resolve().parent
sys.path.insert(0, str(HERE.parent))
sys.dont_write_bytecode = True
import library
import package

OUT = HERE / "out"
WASM = OUT / "semver.wasm"
SOURCES = HERE / "wasm"

LAYOUT = "e-m:e-p:64:64-p10:8:8-p20:8:8-i64:64-i128:128-n32:64-S128-ni:1:10:20"
TRIPLE = "wasm64-unknown-unknown"
SHUFFLE = "@llvm.x86.ssse3.pshuf.b.128"

C_FLAGS = ("-O2", "-mbulk-memory", "-ffreestanding", "-fno-builtin", "-nostdlib", "-Wall", "-Wextra", "-Werror")
FEATURES = ("bulk-memory", "sign-ext", "mutable-globals", "nontrapping-float-to-int", "multivalue", "memory64", "extended-const")


def run(*arguments):
    subprocess.run([str(it) for it in arguments], check=True)


def shuffle_bytes():
    """A function in place of x86's shuffle of 16 bytes: binaryen 108 lowers no vectors."""
    lanes = []
    for n in range(16):
        lanes += [
            f"%index{n} = extractelement <16 x i8> %indexes, i32 {n}",
            f"%low{n} = and i8 %index{n}, 15",
            f"%offset{n} = zext i8 %low{n} to i64",
            f"%from{n} = getelementptr i8, ptr %stored, i64 %offset{n}",
            f"%byte{n} = load i8, ptr %from{n}",
            f"%is_zero{n} = icmp slt i8 %index{n}, 0",
            f"%lane{n} = select i1 %is_zero{n}, i8 0, i8 %byte{n}",
            f"%to{n} = insertelement <16 x i8> {f'%to{n - 1}' if n else 'zeroinitializer'}, i8 %lane{n}, i32 {n}",
        ]
    body = ["%stored = alloca [16 x i8], align 16", "store <16 x i8> %bytes, ptr %stored, align 16", *lanes, "ret <16 x i8> %to15"]
    head = "define internal <16 x i8> @shuffle_bytes(<16 x i8> %bytes, <16 x i8> %indexes) noinline nounwind {"
    return "\n".join(["", head, *(f"  {line}" for line in body), "}", ""])


def retarget(text):
    """The text of a module for x86-64 as one for wasm64: its layout, its name, and the one x86 instruction."""
    text = re.sub(r"^target datalayout = .*", f'target datalayout = "{LAYOUT}"', text, flags=re.M)
    text = re.sub(r"^target triple = .*", f'target triple = "{TRIPLE}"', text, flags=re.M)
    text = re.sub(r' "(probe-stack|stack-probe-size|target-cpu|target-features|frame-pointer)"="[^"]*"', "", text)
    if SHUFFLE in text:
        text = re.sub(rf"^declare .*{re.escape(SHUFFLE)}.*\n", "", text, flags=re.M)
        text = text.replace(SHUFFLE, "@shuffle_bytes") + shuffle_bytes()
    if "llvm.x86" in text:
        sys.exit(f"build.py: the module has another x86 instruction: {re.search(r'llvm[.]x86[.a-z0-9]*', text).group()}")
    return text


def link(clang):
    """Compiles the module and the C sources for wasm64, and links them into a module that exports what semver_wasm.c does."""
    run(clang, "-x", "ir", "-S", "-emit-llvm", library.MODULE, "-o", OUT / "module.ll")
    (OUT / "wasm64.ll").write_text(retarget((OUT / "module.ll").read_text()))
    target = (clang, "--no-default-config", f"--target={TRIPLE}")
    objects = [OUT / "library.o"]
    run(*target, "-O3", "-mbulk-memory", "-x", "ir", "-c", OUT / "wasm64.ll", "-o", objects[0])
    for source in sorted(SOURCES.glob("*.c")):
        objects.append(OUT / f"{source.stem}.o")
        run(*target, *C_FLAGS, f"-I{SOURCES / 'include'}", f"-I{HERE.parent / 'c'}", "-c", source, "-o", objects[-1])
    flags = ("-mwasm64", "--no-entry", "--gc-sections", "--strip-all", "--stack-first", "-z", "stack-size=1048576")
    linker = OUT / "wasm-ld"  # by this name the kit's clang is the linker
    linker.unlink(missing_ok=True)
    linker.symlink_to(clang)
    run(linker, *flags, *objects, "-o", OUT / "wasm64.wasm")
    linker.unlink()  # rt ci rejects links below the project


def number_at(code, at):
    """The LEB128 number at this place, and where it ends."""
    value = shift = 0
    while True:
        value |= (code[at] & 0x7F) << shift
        shift += 7
        at += 1
        if code[at - 1] < 0x80:
            return value, at


def with_narrow_table(code):
    """The module with a table of 32-bit indexes: binaryen 108 can't parse another. The table is empty, so no call goes through it."""
    table, element, flags = 4, 9, 3
    at = 8
    while at < len(code):
        section, (size, start) = code[at], number_at(code, at + 1)
        if section == element:
            sys.exit("build.py: the module has a table of functions")
        if section == table:
            code = code[: start + 2] + bytes([code[start + 2] & flags]) + code[start + 3 :]
        at = start + size
    return code


def lower():
    """Makes the addresses 32 bits."""
    narrow = OUT / "narrow.wasm"
    narrow.write_bytes(with_narrow_table((OUT / "wasm64.wasm").read_bytes()))
    run("wasm-opt", *(f"--enable-{it}" for it in FEATURES), "--memory64-lowering", "-O3", narrow, "-o", WASM)


def is_built():
    """Whether semver.wasm is newer than what it's made of."""
    parts = [library.MODULE, HERE / "build.py", HERE.parent / "c/semver.h", *SOURCES.rglob("*.[ch]")]
    return WASM.exists() and all(WASM.stat().st_mtime >= it.stat().st_mtime for it in parts)


def main():
    if not shutil.which("wasm-opt"):
        sys.exit("build.py: it needs wasm-opt: apt-get install binaryen")
    if library.keep_module():
        return 1
    OUT.mkdir(exist_ok=True)
    if not is_built():
        link(library.kit() / "toolchain/bin/clang")
        lower()
    package.make(WASM)
    return 0


if __name__ == "__main__":
    sys.exit(main())
