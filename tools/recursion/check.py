#!/usr/bin/env python3
"""Finds recursion in the crates: functions that call themselves, directly or through others of their crate, and types that hold
themselves, since dropping and comparing such a value recurses. A text that a caller sends could make either as deep as it likes.
Run at the top of the project; the status is 1 where there is one that isn't listed in ALLOWED.

    tools/recursion/check.py [FOLDER]    FOLDER: of crates, `crates` if it isn't given

Calls are found by name. The receiver of a method is looked up where its type is written (`self`, a field, a parameter); else each
method of that name in the crate counts. So recursion through a closure, an operator or a trait's method of another crate isn't found.
First it looks through SAMPLE, where it has to find what recurses."""
import collections, dataclasses, itertools, pathlib, re, sys

TOP = pathlib.Path(__file__).resolve().parents[2]
# What may recurse, as `crate::file::Type::name`, and why it ends soon whatever a caller sends.
ALLOWED = {}
# Functions that recurse, each named so, and some that don't.
SAMPLE = """
fn direct_recurs(n: u8) { if n > 0 { direct_recurs(n - 1) } }
fn ahead_recurs(n: u8) { behind_recurs(n) }
fn behind_recurs(n: u8) { Some(n).map(ahead_recurs); }
struct Tree { leaf: Leaf, trees: Vec<Tree> }
struct Leaf(u8);
impl Tree {
    fn depth_recurs(&self) -> u8 { self.trees.iter().map(|it| it.depth_recurs()).max() }
    fn size(&self) -> u8 { self.leaf.size() }
    fn first_recurs(&self) { let [first, ..] = self.trees.as_slice(); first.first_recurs() }
    fn fold_recurs(&self, n: u8) { Self::fold_recurs(self, n + 1) }
    fn fold(&self, n: u8) { let fold = n; other(fold) }
}
impl Leaf {
    fn size(&self) -> u8 { self.0 }
}
impl Shown for Leaf {
    fn size(&self) -> u8 { self.size() }
}
fn other(n: u8) { /* other(n) */ }
"""
KEYWORDS = {"if", "match", "while", "for", "return", "fn", "in", "let", "else", "loop", "move", "Some", "Ok", "Err", "None"}
# A string, a character, or a comment.
PASSED_OVER = re.compile(r'//[^\n]*|/\*.*?\*/|b?r(#*)".*?"\1|b?"(?:\\.|[^"\\])*"|b?\'(?:\\[^\']+|[^\'\\])\'', re.S)
CLAUSE = re.compile(r"\b(requires|ensures|invariant|decreases)\s+(?:\w+\s+)?\{")
HEAD = re.compile(
    r"\b(?:(?P<impl>impl|trait)\b(?P<of>[^{;]*)\{|fn\s+(?P<fn>\w+)|(?:struct|enum)\s+(?P<type>\w+))"
)
RESULT = re.compile(r"\)\s*->\s*(.*)", re.S)
CALL = re.compile(r"(?:(?P<path>\w+)\s*(?:::<[^()]*?>)?::|(?P<dot>\.)\s*)?\b(?P<name>[a-z_]\w*)(?:::<[^()]*?>)?\s*\(")
PASSED = re.compile(r"(?<=[(,])\s*(?:(?P<path>\w+)::)?(?P<name>[a-z_]\w*)\s*(?=[,)])")
# The last part of an expression: `.name`, `name`, `Type::name`; or the bracket that ends a call, an index or a group; or `?`.
LAST = re.compile(r"(?:(?P<dot>\.)\s*|(?P<path>\w+)\s*::\s*)?(?P<name>\w+)(?:::<[^()]*?>)?\s*$")
PARTNERS = {")": "(", "]": "["}


def braced(text, at):
    """The place of the partner of the brace at a place."""
    depth = 0
    for place in range(at, len(text)):
        depth += {"{": 1, "}": -1}.get(text[place], 0)
        if depth == 0:
            return place
    raise ValueError("a brace has no partner")


def code_of(text):
    """The text with strings, comments and clauses as spaces."""
    text = PASSED_OVER.sub(lambda found: re.sub(r"[^\n]", " ", found[0]), text)
    at = 0
    while found := CLAUSE.search(text, at):
        end = braced(text, found.end() - 1) + 1
        text = text[: found.start()] + re.sub(r"[^\n]", " ", text[found.start() : end]) + text[end:]
        at = end
    return text


def opened(text):
    """The place of the partner of the bracket that ends a text."""
    closing, depth = text[-1], 0
    for place in range(len(text) - 1, -1, -1):
        depth += {closing: 1, PARTNERS[closing]: -1}.get(text[place], 0)
        if depth == 0:
            return place
    return 0


def split(text):
    """The parts of a tuple that ends a text, between its commas."""
    inside = text[opened(text) + 1 : -1]
    depths = itertools.accumulate({"(": 1, "[": 1, ")": -1, "]": -1}.get(it, 0) for it in inside)
    return "".join("\0" if it == "," and not depth else it for it, depth in zip(inside, depths)).split("\0")


def union(sets):
    return set().union(*sets)


def type_name(text):
    """The name of the type that an `impl` is for, or of the trait."""
    text = re.sub(r"^\s*<(?:[^<>]|<[^<>]*>)*>", "", text)
    text = text.rsplit(" for ", 1)[-1]
    return re.search(r"\w+", text.replace("&", ""))[0]


@dataclasses.dataclass(eq=False)
class Function:
    """A function: where it stands, the type of its `impl` or trait, if there is one, and its text."""

    file: str
    of: str | None
    is_of_trait: bool
    name: str
    head: str
    body: str

    def calls_itself_alike(self, arguments):
        """Whether these are its own parameters. A function that called itself so would never end, and each is proved to end: so the
        call is of another function with this name."""
        names = re.findall(r"[(,]\s*&?(?:mut\s+)?(self|\w+(?=\s*:))", self.head)
        return [it.strip() for it in arguments.rstrip(" ,").split(",")] == names

    @property
    def crate(self):
        return self.file.split("::")[0]

    def __str__(self):
        return "::".join(part for part in (self.file, self.of, self.name) if part)


class Sources:
    """The functions and types of the crates, and who calls whom."""

    def __init__(self, files):
        self.functions, self.types, self.traits = [], {}, set()
        for file, text in files:
            self.read(file, code_of(text))
        self.named = collections.defaultdict(list)
        for function in self.functions:
            self.named[function.name].append(function)

    def read(self, file, text):
        owners, at = [], 0
        while found := HEAD.search(text, at):
            at = found.end()
            while owners and owners[-1][1] < at:
                owners.pop()
            if found["impl"]:
                of = type_name(found["of"])
                if found["impl"] == "trait":
                    self.traits.add(of)
                owners.append((of, braced(text, at - 1), found["impl"] == "trait" or " for " in found["of"]))
                continue
            brace = re.compile(r"[{;]").search(text, at)
            if not brace or brace[0] == ";":
                if found["type"]:
                    self.add_type(found["type"], text[at : brace.start() if brace else at])
                continue
            end = braced(text, brace.start())
            if found["type"]:
                self.add_type(found["type"], text[brace.start() : end])
            else:
                of, _, is_of_trait = owners[-1] if owners else (None, 0, False)
                self.functions.append(Function(file, of, is_of_trait, found["fn"], text[at : brace.start()], text[brace.start() : end]))
            at = end

    def add_type(self, name, held):
        """Notes what a type holds; types of one name are taken together."""
        self.types[name] = self.types.get(name, "") + held

    def methods(self, name, types):
        """The methods of this name of these types; of a trait's or a parameter's those of each type."""
        own = [it for it in self.named[name] if it.of and (types is None or it.of in types)]
        # A type's own method comes before that of a trait.
        first = {it.of for it in own if not it.is_of_trait}
        return [it for it in own if not it.is_of_trait or it.of not in first]

    def types_of(self, function, before, depth=12):
        """The names in the type of the expression that ends a text of the function's body; None if it isn't known."""
        before = before.rstrip().removesuffix("?").rstrip()
        is_call, before_call = before.endswith(")"), before
        while before[-1:] in PARTNERS:
            before = before[: opened(before)].rstrip()
        found = LAST.search(before)
        if not found and is_call and depth:
            parts = [self.types_of(function, it, depth - 1) for it in split(before_call)]
            return None if None in parts else union(parts)
        if not found or depth == 0 or (not is_call and found["path"]):
            return None
        name = found["name"]
        if found["dot"]:
            types = self.types_of(function, before[: found.start()], depth - 1)
            own = self.methods(name, types) if is_call else []
            if types is None and not own:
                return None
            if not is_call:
                return union(self.field(name, it) or {it} for it in types) if types is not None else None
            return union(self.result(it) for it in own) if own else types
        if is_call:
            functions = self.at_path(function, found["path"], name)
            if functions:
                return union(self.result(it) for it in functions)
            return {found["path"]} if found["path"] else None
        if name == "self":
            return None if function.of in self.traits else {function.of}
        return self.bound(function, name, before[: found.start()], depth - 1)

    def field(self, name, of):
        """The names in the type of a field of a struct or a variant's parts."""
        held = self.types.get(of, "")
        if name.isdigit():
            return set(re.findall(r"\w+", held))
        written = re.search(rf"\b{name}\s*:\s*((?:[^,()<>{{}}]|<(?:[^<>]|<[^<>]*>)*>|\([^()]*\))*)", held)
        return self.names(of, written[1]) if written else None

    def result(self, function):
        found = RESULT.search(function.head)
        return self.names(function.of, found[1]) if found else set()

    def held(self, name, pattern):
        """The names in the type of a variable that a pattern takes out of a variant or a struct."""
        variant = list(re.finditer(rf"\b(\w+)::(\w+)\((?:&|mut |ref )?{name}\)", pattern))
        if variant and (held := re.search(rf"\b{variant[-1][2]}\s*\(([^()]*)\)", self.types.get(variant[-1][1], ""))):
            return self.names(variant[-1][1], held[1])
        struct = list(re.finditer(rf"\b(\w+)(?:::\w+)?\s*\{{[^{{}}]*\b{name}\b[^{{}}]*\}}\s*=", pattern))
        return self.field(name, struct[-1][1]) if struct else None

    def names(self, of, written):
        return {of if it == "Self" else it for it in re.findall(r"\w+", written)}

    def bound(self, function, name, before, depth):
        """The names in the type of a variable, from where it is bound last: a `let`, a `for`, a `match`, a closure or a parameter."""
        places = [
            (found.start(), found)
            for found in re.finditer(rf"\b(?:let|for)\b([^=;{{}}]*?\b{name}\b[^=;{{}}]*?)(?:=(?!=)|\bin\b)", before)
        ]
        places += [(found.start(), found) for found in re.finditer(rf"\blet\s+(\w+\s*\{{[^{{}}]*\b{name}\b[^{{}}]*\}})\s*=", before)]
        places += [(found.start(), found) for found in re.finditer(rf"\|[^|(]*\b{name}\b[^|]*\|", before)]
        places += [(found.start(), found) for found in re.finditer(rf"[(,{{]\s*(?:mut |ref )?{name}\s*[,)}}][^;{{}}]*?\}}?[^;{{}}]*?=>", before)]
        if not places:
            written = re.search(rf"\b{name}\s*:\s*((?:[^,()<>]|<(?:[^<>]|<[^<>]*>)*>|\([^()]*\))*)", function.head)
            return self.names(function.of, written[1]) if written else None
        _, found = max(places, key=lambda it: it[0])
        line = before[found.start() :].split("=>")[0].split(";")[0] + function.body[len(before) :].split("=>")[0].split(";")[0]
        if held := self.held(name, before[max(0, found.start() - 80) :] if found[0].endswith("=>") else line):
            return held
        if found[0][0] == "|":
            call = LAST.search(before[: found.start()].rstrip().removesuffix("move").rstrip().removesuffix("("))
            return self.types_of(function, before[: call.start()], depth) if call and call["dot"] else None
        if found[0].endswith("=>"):
            heads = list(re.finditer(r"\bmatch\b([^{}]*)\{", before[: found.start() + 1]))
            return self.types_of(function, heads[-1][1], depth) if heads else None
        if ":" in found[1].replace("::", ""):
            return self.names(function.of, found[1].split(":", 1)[1])
        end = re.compile(r"[;{]|\belse\b").search(function.body, found.end())
        return self.types_of(function, function.body[found.end() : end.start()], depth)

    def recursions(self):
        """The functions that call one another in a circle."""
        calls = {it: [other for other in dict.fromkeys(self.called(it)) if other.crate == it.crate] for it in self.functions}
        return cycles(self.functions, calls)

    def nestings(self):
        """The types that hold one another in a circle."""
        holds = {it: [other for other in self.types if re.search(rf"\b{other}\b", held)] for it, held in self.types.items()}
        return cycles(list(self.types), holds)

    def called(self, function):
        """The functions of the crate that a function may call."""
        for found in CALL.finditer(function.body):
            name = found["name"]
            if name in KEYWORDS or function.body[: found.start("name")].endswith("fn "):
                continue
            if found["dot"]:
                called = self.methods(name, self.types_of(function, function.body[: found.start("dot")]))
            else:
                called = self.at_path(function, found["path"], name)
            arguments = re.match(r"[^()]*", function.body[found.end() :])[0]
            if found["dot"]:
                arguments = f"{function.body[: found.start('dot')].split()[-1]},{arguments}"
            yield from (it for it in called if it is not function or not function.calls_itself_alike(arguments))
        for found in PASSED.finditer(function.body):
            name = found["name"]
            is_local = re.search(
                rf"\b(let|for)\b[^=;]*\b{name}\b|\|[^|]*\b{name}\b[^|]*\||[(,{{]\s*{name}\s*[,)}}][^;{{}}]*=>", function.body
            ) or re.search(rf"\b{name}\s*:", function.head)
            if found["path"] or not is_local:
                yield from self.at_path(function, found["path"], name)

    def at_path(self, function, path, name):
        if path == "Self":
            return self.methods(name, {function.of})
        if path and path[0].isupper():
            return self.methods(name, {path})
        free = [it for it in self.named[name] if not it.of and it.crate == function.crate]
        if path in (None, "self"):
            return [it for it in free if it.file == function.file] or free
        return [it for it in free if it.file.rsplit("::", 1)[-1] == path]


def cycles(nodes, after):
    """The sets of nodes of which each reaches each, in Tarjan's order, by a stack of our own."""
    index, low, found, stack, on = {}, {}, [], [], set()
    for root in nodes:
        work = [(root, None)] if root not in index else []
        while work:
            node, ahead = work.pop()
            if ahead is None:
                index[node] = low[node] = len(index)
                stack.append(node)
                on.add(node)
                ahead = iter(after[node])
            for it in ahead:
                if it not in index:
                    work += [(node, ahead), (it, None)]
                    break
                if it in on:
                    low[node] = min(low[node], low[it])
            else:
                if low[node] == index[node]:
                    part = []
                    while not part or part[-1] is not node:
                        part.append(stack.pop())
                        on.discard(part[-1])
                    if len(part) > 1 or node in after[node]:
                        found.append(part[::-1])
                if work:
                    low[work[-1][0]] = min(low[work[-1][0]], low[node])
    return found


def files(folder):
    """The sources below a folder of crates, each with the path of its module."""
    for path in sorted(folder.glob("*/src/**/*.rt")):
        crate, _, *parts = path.relative_to(folder).with_suffix("").parts
        yield "::".join((crate, *parts)), path.read_text()


def sample_is_found():
    sample = Sources([("sample", SAMPLE)])
    found = {it.name for part in sample.recursions() for it in part}
    return found == {it.name for it in sample.functions if it.name.endswith("_recurs")} and sample.nestings() == [["Tree"]]


def main():
    if not sample_is_found():
        sys.exit("what recurses in SAMPLE isn't found")
    sources, wrong, met = Sources(files(pathlib.Path(sys.argv[1]) if sys.argv[1:] else TOP / "crates")), 0, set()
    for part in sources.recursions():
        names = [str(it) for it in part]
        met.update(names)
        if not all(name in ALLOWED for name in names):
            wrong += 1
            print(f"recursion: {' calls '.join([*names, names[0]])}")
    for part in sources.nestings():
        wrong += 1
        print(f"a type holds itself: {' holds '.join([*part, part[0]])}")
    for name in ALLOWED.keys() - met:
        wrong += 1
        print(f"{name} is allowed to recurse, and doesn't")
    print(f"recursion: {len(sources.functions)} functions, {wrong} findings")
    return 1 if wrong else 0


if __name__ == "__main__":
    sys.exit(main())
