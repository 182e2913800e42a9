#!/usr/bin/env python3
"""Makes the npm package, which has the sources, the same as CommonJS, types for both, and the module once, compressed and as base64; and the
page.

    bindings/js/package.py

It makes them of the semver.wasm that build.py left. Where that is absent, or older than a source of it, nothing is made, and the status
is 1."""
import base64
import pathlib
import re
import shutil
import sys

HERE = pathlib.Path(__file__).resolve().parent
TOP = HERE.parents[1]
sys.path.insert(0, str(HERE.parent))
sys.dont_write_bytecode = True
import library
import lz4

SOURCES = HERE / "src"
WASM = HERE / "out/semver.wasm"
FOLDER = HERE / "out/package"
PAGE = HERE / "out/page/index.html"
ENTRANCES = ("index", "compat")
# node-semver's sub-paths: the files of each folder, by the names that they export.
SUB_PATHS = {
    "classes": {"comparator": "Comparator", "range": "Range", "semver": "SemVer"},
    "functions": {
        **{name: name for name in (
            "clean", "cmp", "coerce", "compare", "diff", "eq", "gt", "gte", "inc", "lt", "lte", "major", "minor", "neq", "parse", "patch",
            "prerelease", "rcompare", "rsort", "satisfies", "sort", "valid",
        )},
        "compare-build": "compareBuild",
        "compare-loose": "compareLoose",
    },
    "ranges": {
        **{name: name for name in ("gtr", "intersects", "ltr", "outside", "subset")},
        "max-satisfying": "maxSatisfying",
        "min-satisfying": "minSatisfying",
        "min-version": "minVersion",
        "simplify": "simplifyRange",
        "to-comparators": "toComparators",
        "valid": "validRange",
    },
}
MODULES_OF_PAGE = ("expand", "calls", "errors", "held", "plain", "versions", "lists", "ranges", "index")
IMPORT = re.compile(r"^import \{([^}]*)\} from '(\.[^']+)\.js';\n", re.M)
IMPORT_OF_SCRIPT = re.compile(r"^import ('[^']+');\n", re.M)
IMPORT_OF_PAGE = re.compile(r"^import (?:\{[^}]*\} from )?'[^']+';\n", re.M)
EXPORT_FROM = re.compile(r"^export \{([^}]*)\} from '(\.[^']+)\.js';\n", re.M)
EXPORT = re.compile(r"^export (?=(?:function|class|const|let) (\w+))", re.M)
DEFAULT = re.compile(r"^export default ", re.M)
EXPORTED = re.compile(r"^EXPORT\([\w *]+, (\w+)\)|export_name\(\"(\w+)\"\)", re.M)


def names(listed):
    return ", ".join(name.strip() for name in listed.split(",") if name.strip())


def as_commonjs(source):
    """An ES module of this package as CommonJS. It knows the forms of import and export that the sources have, and no others."""
    exported = EXPORT.findall(source)
    source = IMPORT_OF_SCRIPT.sub(r"require(\1);\n", source)
    source = IMPORT.sub(lambda it: f"const {{ {names(it[1])} }} = require('{it[2]}.cjs');\n", source)
    for listed, module in EXPORT_FROM.findall(source):
        exported += [f"{name}: require('{module}.cjs').{name}" for name in names(listed).split(", ")]
    if DEFAULT.search(source):
        exported.append("default: all")
    source = DEFAULT.sub("const all = ", EXPORT.sub("", EXPORT_FROM.sub("", source)))
    if left := re.search(r"^(import|export)\b.*", source, re.M):
        raise ValueError(f"package.py: {left.group()}")
    members = "".join(f"  {name},\n" for name in exported)
    return f"'use strict';\n{source}\nmodule.exports = {{\n{members}}};\n"


def exported():
    """The names of the functions that semver.wasm exports."""
    return [one or other for source in sorted((HERE / "wasm").glob("*.[ch]")) for one, other in EXPORTED.findall(source.read_text())]


def module_script(wasm):
    """A script that is the same for ES modules and CommonJS, so that the package has the module once: neither reads the other's files."""
    module = wasm.read_bytes()
    text = base64.b64encode(lz4.compress(module)).decode()
    listed = ", ".join(f"'{name}'" for name in exported())
    return f"globalThis[Symbol.for('deno-semver.wasm')] = {{\n  size: {len(module)},\n  names: [{listed}],\n  base64: '{text}',\n}};\n"


def write_sub_path(folder, name, exports):
    """Writes a file that exports a name of compat: as the module itself in CommonJS, and as its default in ES modules. `index` of a folder
    has several names."""
    parts = {
        ".js": f"export {{ {exports} as default }} from '../../compat.js';\n",
        ".cjs": f"'use strict';\nmodule.exports = require('../../compat.cjs').{exports};\n",
        ".d.ts": f"export {{ {exports} as default }} from '../../compat.js';\n",
        ".d.cts": f"import {{ {exports} }} from '../../compat.cjs';\nexport = {exports};\n",
    }
    if name == "index":
        parts[".js"] = parts[".d.ts"] = f"export {{ {exports} }} from '../../compat.js';\n"
        parts[".cjs"] = f"'use strict';\nconst {{ {exports} }} = require('../../compat.cjs');\nmodule.exports = {{ {exports} }};\n"
        parts[".d.cts"] = f"export {{ {exports} }} from '../../compat.cjs';\n"
    for suffix, text in parts.items():
        (folder / f"{name}{suffix}").write_text(text)


def make_sub_paths():
    """Makes node-semver's sub-paths below compat."""
    for kind, names in SUB_PATHS.items():
        folder = FOLDER / "compat" / kind
        folder.mkdir(parents=True)
        for name, exported in names.items():
            write_sub_path(folder, name, exported)
    classes = SUB_PATHS["classes"].values()
    write_sub_path(FOLDER / "compat/classes", "index", ", ".join(classes))


def without_links(page):
    """A page of the repository for the package, which has NODE_SEMVER.md beside it and no other page."""
    page = page.replace("](../../docs/NODE_SEMVER.md)", "](NODE_SEMVER.md)")
    return re.sub(r"\[([^\]]*)\]\((?!NODE_SEMVER)[^)]*\)", r"\1", page)


def make_page(sources, module):
    """Makes the page as one file, out/page/index.html, so that a browser opens it from a disk too. In one script, no two modules may have
    the same name."""
    modules = [module, *(sources[f"{name}.js"] for name in MODULES_OF_PAGE)]
    modules += [(HERE / f"page/{name}.js").read_text() for name in ("number-line", "page")]
    script = "\n".join(EXPORT.sub("", EXPORT_FROM.sub("", IMPORT_OF_PAGE.sub("", module))) for module in modules)
    style = (HERE / "page/style.css").read_text()
    page = (HERE / "page/index.html").read_text()
    page = page.replace('<link rel="stylesheet" href="style.css">', f"<style>\n{style}</style>")
    page = page.replace('<script type="module" src="page.js"></script>', f'<script type="module">\n{script}</script>')
    PAGE.parent.mkdir(parents=True, exist_ok=True)
    PAGE.write_text(page)


def make(wasm):
    """Makes the package of this module of WebAssembly in out/package, and the page."""
    shutil.rmtree(FOLDER, ignore_errors=True)
    FOLDER.mkdir(parents=True)
    sources = {str(path.relative_to(SOURCES)): path.read_text() for path in SOURCES.rglob("*.js")}
    for name, source in sources.items():
        (FOLDER / name).parent.mkdir(exist_ok=True)
        (FOLDER / name).write_text(source)
        (FOLDER / name).with_suffix(".cjs").write_text(as_commonjs(source))
    make_sub_paths()
    module = module_script(wasm)
    (FOLDER / "module").mkdir()
    (FOLDER / "module/semver.js").write_text(module)
    (FOLDER / "module/package.json").write_text('{ "type": "commonjs" }\n')
    for name in ENTRANCES:
        types = (SOURCES / f"{name}.d.ts").read_text()
        (FOLDER / f"{name}.d.ts").write_text(types)
        (FOLDER / f"{name}.d.cts").write_text(types.replace(".js'", ".cjs'"))
    for path in (HERE / "package.json", TOP / "LICENSE", TOP / "packaging/THIRD-PARTY"):
        shutil.copy(path, FOLDER)
    for path in (HERE / "README.md", TOP / "docs/NODE_SEMVER.md"):
        (FOLDER / path.name).write_text(without_links(path.read_text()))
    make_page(sources, module)


def why_stale():
    """Why semver.wasm isn't what build.py would build of the sources as they are, or None."""
    if not WASM.exists():
        return "bindings/js/build.py has built no semver.wasm"
    built = WASM.stat().st_mtime
    crate = library.find("semver_c")
    changed = {it.folder: library.changed(it.folder) for it in [*crate.below(), crate]}
    for path in (HERE / "build.py", HERE.parent / "c/semver.h", *(HERE / "wasm").rglob("*.[ch]")):
        changed[path] = path.stat().st_mtime
    newer = [str(path.relative_to(TOP)) for path, time in changed.items() if time > built]
    if not newer:
        return None
    return f"{newer[0]}{' and more' * (len(newer) > 1)} changed after bindings/js/build.py built semver.wasm"


def main():
    if why := why_stale():
        sys.exit(why)
    make(WASM)


if __name__ == "__main__":
    main()
