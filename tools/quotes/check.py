#!/usr/bin/env python3
"""Compares what the pages for callers quote with the sources: each contract of a CALLING.md with the function that it names, clause
by clause. And checks each example of these pages, as a crate of its own over the built libraries. Run at the top of the project, after rt ci;
the status is 1 where a quote differs, or leaves out a clause, or isn't there, or an example isn't proved, or docs/DEFINITIONS.md is
stale."""
import importlib.util, pathlib, re, subprocess, sys, tempfile

import definitions

TOP = pathlib.Path(__file__).resolve().parents[2]
CRATES = ("semver_base", "semver_req", "deno_semver")
# How many contracts and examples a page has.
COUNTS = {f"crates/{crate}/CALLING.md": (count, 1) for crate, count in zip(CRATES, (46, 29, 29))}


def plain(text):
    """The text with single blanks, and none beside brackets."""
    text = re.sub(r"\s+", " ", text).strip()
    return re.sub(r",? ?([)\]])", r"\1", re.sub(r"([(\[]) ", r"\1", text))


def braced(text, at):
    """What stands between the brace at this place and its partner, and the place after that."""
    depth = 0
    for place in range(at, len(text)):
        depth += {"{": 1, "}": -1}.get(text[place], 0)
        if depth == 0:
            return text[at + 1 : place], place + 1
    raise ValueError("a brace has no partner")


def pointed(clause):
    """The clause in the pages' short form: S is what `self` points to at the call, and S' at the return."""
    for word, short in (("self.now", "S"), ("self.old", "S"), ("self.new", "S'")):
        clause = re.sub(rf"\b{re.escape(word)}\b", short, clause)
    return plain(clause)


class Function:
    """A function of the sources: its name, its parameters and result, and its clauses."""

    def __init__(self, name, text, at):
        self.name, self.clauses = name, []
        found = re.compile(r"\b(requires|ensures)\s+(\w+\s+)?(?=\{)|[{;]|\bwhere\b")
        end = None
        while it := found.search(text, at):
            end = it.start() if end is None else end
            at = it.end()
            if it[1]:
                clause, at = braced(text, it.end())
                self.clauses.append((it[1], (it[2] or "").strip(), pointed(clause)))
            elif it[0] != "where":
                break
        self.signature = None if end is None else end

    def told(self):
        return [f"{kind}{f' {name}' if name else ''}: {clause}" for kind, name, clause in self.clauses]


def owners_of(text):
    """Of each `impl` and trait: where it begins and ends, and the names of its type and its trait."""
    for it in re.finditer(r"^(?:impl|(?:pub )?trait)\b([^{;]*)\{", text, re.M):
        named = re.sub(r"^<[^>]*>", "", it[1].split(" where ")[0])
        yield it.start(), braced(text, it.end() - 1)[1], {re.search(r"\w+", part)[0] for part in named.split(" for ")}


def functions_of(text, modules):
    """Each function: its name, the names that may stand before it, its parameters and result, and its clauses."""
    text = re.sub(r"^\s*(///|//).*$", "", text, flags=re.M)
    owners = list(owners_of(text))
    for it in re.finditer(r"\bfn (\w+)(?=[<(])", text):
        function = Function(it[1], text, it.end())
        names = [names for start, end, names in owners if start < it.start() < end]
        yield it[1], names[0] if names else modules | {""}, plain(text[it.end() : function.signature]), function.told()


def sources(crate):
    """The functions of a crate."""
    for path in sorted((TOP / f"crates/{crate}/src").rglob("*.rt")):
        yield from functions_of(path.read_text(), set(path.relative_to(TOP / f"crates/{crate}/src").with_suffix("").parts))


def quotes(page):
    """Each quoted function: its line, and its clauses."""
    for block in re.findall(r"^```text\n(.*?)^```", page, flags=re.M | re.S):
        quote = None
        for line in block.splitlines():
            if line.startswith("fn "):
                if quote:
                    yield quote
                quote = (line, [])
            elif quote and line.strip():
                quote[1].append(plain(line))
        if quote:
            yield quote


def differing(page, known):
    for line, clauses in quotes(page):
        head = re.match(r"fn ((?:[\w<>, ]+::)*)(\w+)(.*)", line)
        owner = re.sub(r"<[^>]*>", "", head[1]).removesuffix("::").rsplit("::", 1)[-1]
        name, signature = head[2], plain(head[3])
        alike = [told for other, owners, theirs, told in known if other == name and owner in owners and theirs == signature]
        if not alike:
            yield f"{line}: no function has this name and these parameters"
        elif clauses not in alike:
            nearest = max(alike, key=lambda told: len(set(told) & set(clauses)))
            yield f"{line}: quoted, not in the source: {[it for it in clauses if it not in nearest]}; in the source, not quoted: {[it for it in nearest if it not in clauses]}"


def library():
    """The module of bindings/library.py, which knows the crates and the kit."""
    spec = importlib.util.spec_from_file_location("library", TOP / "bindings/library.py")
    sys.modules["library"] = module = importlib.util.module_from_spec(spec)
    spec.loader.exec_module(module)
    return module


def unproved(example):
    """What is printed of an example that isn't proved, as a crate over the three libraries."""
    crates, kit = [library().find(name) for name in CRATES], library().kit()
    externs = [f"std={kit}/rlibs/std.rlib", *(f"{it.name}={it.rlib}" for it in crates)]
    searched = [f"{kit}/rlibs", *(it.rlib.parent for it in crates)]
    with tempfile.TemporaryDirectory() as room:
        (pathlib.Path(room) / "src").mkdir()
        (pathlib.Path(room) / "proofs").mkdir()
        text = example if "#![tactic(auto)]" in example else "#![tactic(auto)]\n\n" + example
        (pathlib.Path(room) / "src/lib.rt").write_text(text)
        arguments = [
            *("--crate-name", "example", "src/lib.rt", "--links", "example="),
            *(argument for it in externs for argument in ("--extern", it)),
            *(argument for it in searched for argument in ("-L", f"dependency={it}")),
            *("--antt-project", f"{kit}/rattle/logic/antt-project.json", "--logic-built", f"{kit}/logic_built"),
        ]
        ran = subprocess.run([kit / "bin/rattle", "check", *arguments], cwd=room, capture_output=True, text=True)
    if ran.returncode == 0:
        return None
    return "\n".join(it for it in (ran.stdout + ran.stderr).splitlines() if not it.startswith("statements "))


def main():
    wrong = contracts = examples = 0
    known = [it for crate in CRATES for it in sources(crate)]
    for name, counts in COUNTS.items():
        page = (TOP / name).read_text()
        blocks = re.findall(r"^```rust\n(.*?)^```", page, flags=re.M | re.S)
        found = (sum(1 for _ in quotes(page)), len(blocks))
        problems = [] if found == counts else [f"contracts and examples: {found}, and {counts} are expected"]
        problems += differing(page, known)
        problems += [f"the example isn't proved:\n{it}" for it in map(unproved, blocks) if it]
        contracts, examples, wrong = contracts + found[0], examples + found[1], wrong + len(problems)
        for it in problems:
            print(f"{name}: {it}")
    if definitions.is_stale():
        wrong += 1
        print("docs/DEFINITIONS.md is stale: run tools/quotes/definitions.py")
    print(f"quotes: {contracts} contracts and {examples} examples, {wrong} problems")
    return 1 if wrong else 0


if __name__ == "__main__":
    sys.exit(main())
