#!/usr/bin/env python3
"""Builds the static library of the calls, crates/semver_c/out/libsemver_c.a, where it isn't there or a source is newer.

`rt ci` leaves the libraries below built, with their statements alone, and `rt lib` would prove each of them once more. So where
they stand and no source is newer, semver_c is proved and built over them as `rt ci` does it with a program; else by `rt lib`."""
import contextlib, dataclasses, functools, os, pathlib, subprocess, sys, tempfile

TOP = pathlib.Path(__file__).resolve().parents[1]
CRATE = TOP / "crates/semver_c"
LIBRARY = CRATE / "out/libsemver_c.a"
# The LLVM module of the library, of which WebAssembly is made.
MODULE = CRATE / "out/semver_c.bc"

KEEPING_CLANG = """#!/bin/sh
# Compiles as the kit's clang does, and copies the module.
for argument; do
    case $argument in *.bc) cp "$argument" '{module}' ;; esac
done
exec '{clang}' "$@"
"""


@functools.cache
def kit():
    """The folder of the Rattle kit."""
    page = subprocess.run(["rt", "doc"], capture_output=True, text=True, check=True).stdout.strip()
    return pathlib.Path(page).parent


@dataclasses.dataclass(frozen=True)
class Crate:
    """A line of crates.txt: a crate, those of the project on which it stands, and those of the kit."""

    name: str
    is_static: bool
    project: tuple["Crate", ...]
    kit: tuple[str, ...]

    @property
    def folder(self):
        return TOP / "crates" / self.name

    @property
    def rlib(self):
        return self.folder / "out/rlib" / f"{self.name}.rlib"

    def below(self):
        """The crates of the project below this one, each after those that it uses."""
        every = [it for crate in self.project for it in [*crate.below(), crate]]
        return list(dict.fromkeys(every))

    def arguments(self):
        """What `rattle build` takes in the crate's folder."""
        folder = kit()
        root = "src/main.rt" if (self.folder / "src/main.rt").exists() else "src/lib.rt"
        externs = [f"{name}={folder}/rlibs/{name}.rlib" for name in self.kit] + [f"{it.name}={it.rlib}" for it in self.project]
        searched = [f"{folder}/rlibs", *(it.rlib.parent for it in self.below())]
        return [
            *("--crate-name", self.name, root, "--links", f"{self.name}="),
            *(argument for it in externs for argument in ("--extern", it)),
            *(argument for it in searched for argument in ("-L", f"dependency={it}")),
            *("--antt-project", f"{folder}/rattle/logic/antt-project.json", "--logic-built", f"{folder}/logic_built"),
            *("--crate-type", "staticlib") * self.is_static,
        ]


@functools.cache
def find(name):
    """The crate of this name."""
    lines = dict(line.split(":") for line in (TOP / "crates.txt").read_text().splitlines() if line.strip())
    heads = {head.split()[0]: head for head in lines}
    uses = lines[heads[name]].split()
    project = tuple(find(it) for it in uses if it in heads)
    return Crate(name, "staticlib" in heads[name].split(), project, ("std", *(it for it in uses if it not in heads)))


def changed(folder):
    """When a source of the crate in this folder last changed."""
    files = (file for part in ("src", "specs", "proofs") for file in (folder / part).rglob("*") if file.is_file())
    return max(file.stat().st_mtime for file in files)


def is_newer(made, crates):
    """Whether what was made is there, and newer than each source of these crates."""
    return made.exists() and all(made.stat().st_mtime >= changed(it.folder) for it in crates)


def build_over(crate, made, *flags, toolchain=None, keeps=False, **how):
    """Proves and builds the program or static library of a crate into `made`, over the libraries below as they stand, and with `keeps` over
    what earlier checks of the crate proved."""
    arguments = [*crate.arguments(), "--jobs", str(os.cpu_count()), *flags, "--backend", "llvm", "-o", str(made)]
    arguments += ["--incremental", "out/incremental"] * keeps
    arguments += ["--toolchain", str(toolchain or kit() / "toolchain")]
    made.parent.mkdir(parents=True, exist_ok=True)
    return subprocess.run([kit() / "bin/rattle", "build", *arguments], cwd=crate.folder, **how).returncode


@contextlib.contextmanager
def keeping_toolchain(module=MODULE):
    """A toolchain folder that is the kit's but for its clang, which copies the module that rattle compiles. It's removed afterwards, since
    `rt ci` rejects links below the project."""
    kits = kit() / "toolchain"
    with tempfile.TemporaryDirectory() as name:
        folder = pathlib.Path(name)
        (folder / "bin").mkdir()
        (folder / "lib").symlink_to(kits / "lib")
        for tool in ("llvm-ar", "ld.lld"):
            (folder / "bin" / tool).symlink_to(kits / "bin/clang")
        clang = folder / "bin/clang"
        clang.write_text(KEEPING_CLANG.format(module=module, clang=kits / "bin/clang"))
        clang.chmod(0o755)
        yield folder


def main():
    crate = find("semver_c")
    below = crate.below()
    if is_newer(LIBRARY, [*below, crate]):
        return 0
    if all(is_newer(it.rlib, [*it.below(), it]) for it in below):
        with keeping_toolchain() as toolchain:
            return build_over(crate, LIBRARY, toolchain=toolchain)
    return subprocess.run(["rt", "lib"], cwd=CRATE).returncode


def keep_module():
    """Builds the library where a source is newer, and its module: by the same build, or by another one where `rt lib` left the library."""
    if main():
        return 1
    crate = find("semver_c")
    if is_newer(MODULE, [*crate.below(), crate]):
        return 0
    before = LIBRARY.read_bytes()
    with keeping_toolchain() as toolchain:
        if build_over(crate, LIBRARY, toolchain=toolchain, keeps=True):
            return 1
    if LIBRARY.read_bytes() != before:
        print(f"library.py: {LIBRARY} was built twice, and differs", file=sys.stderr)
        return 1
    return 0


if __name__ == "__main__":
    sys.exit(main())
