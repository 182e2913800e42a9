#!/usr/bin/env python3
"""Compares the places of errors in random texts with an automaton of each grammar, written here from the grammars alone. Run at
the top of the project, after rt ci (or after rt run in crates/conformance and crates/ranges).

    tools/places/check.py [COUNT] [SEED]    COUNT: so many texts, 100,000 if it isn't given; a fifth as many of versions, and as many
                                            with numbers that don't all fit

A grammar is a regular expression. Its derivative by a character is what may follow that character; a prefix is viable until no
derivative is left. Each text is asked of the program conformance by each grammar, and some are asked of ranges, which says the
place in its JSON. The last line counts; the status is 1 where something differs."""
import functools, json, pathlib, random, re, subprocess, sys

TOP = pathlib.Path(__file__).resolve().parents[2]
CONFORMANCE, RANGES = (TOP / f"crates/{name}/out/{name}" for name in ("conformance", "ranges"))
# So many of the texts are asked of ranges too, a program that runs once for each.
SHOWN = 2_000

# ---- regular expressions: None has no text, () the empty one only, a frozenset one character of it
EMPTY = ()


def chars(text):
    return frozenset(text)


def seq(*parts):
    if None in parts:
        return None
    flat = []
    for part in parts:
        flat += part[1:] if isinstance(part, tuple) and part[:1] == ("seq",) else [part] if part != EMPTY else []
    return EMPTY if not flat else flat[0] if len(flat) == 1 else ("seq", *flat)


def alt(*parts):
    flat = set()
    for part in parts:
        if part is not None:
            flat |= part[1] if isinstance(part, tuple) and part[:1] == ("alt",) else {part}
    return None if not flat else flat.pop() if len(flat) == 1 else ("alt", frozenset(flat))


def star(part):
    return ("star", part)


def optional(part):
    return alt(part, EMPTY)


def some(part):
    return seq(part, star(part))


def text(letters):
    return seq(*map(chars, letters))


def listed(item, separator):
    """Items with separators between them, and at most one at the end."""
    return seq(item, star(seq(separator, item)), optional(separator))


@functools.cache
def has_empty(part):
    if part is None or isinstance(part, frozenset):
        return False
    if part == EMPTY or part[0] == "star":
        return True
    return all(map(has_empty, part[1:])) if part[0] == "seq" else any(map(has_empty, part[1]))


@functools.cache
def after(part, c):
    """What may follow the character in a text of this expression."""
    if part is None or part == EMPTY:
        return None
    if isinstance(part, frozenset):
        return EMPTY if c in part else None
    if part[0] == "star":
        return seq(after(part[1], c), part)
    if part[0] == "alt":
        return alt(*(after(one, c) for one in part[1]))
    rest = seq(*part[2:])
    first = seq(after(part[1], c), rest)
    return alt(first, after(rest, c)) if has_empty(part[1]) else first


def place(grammar, given):
    """The index, in bytes, at which the text leaves the grammar."""
    for index, c in enumerate(given):
        grammar = after(grammar, c)
        if grammar is None:
            return len(given[:index].encode())
    return len(given.encode())


# ---- the grammars of ranges
DIGITS = "0123456789"
LETTERS = "abcdefghijklmnopqrstuvwxyzABCDEFGHIJKLMNOPQRSTUVWXYZ"
SPACE = chars(" \t\n\u00a0\u3000")
SPACES, SOME_SPACES = star(SPACE), some(SPACE)
IDENTIFIER = some(chars(DIGITS + LETTERS + "-"))
IDENTIFIERS = listed(IDENTIFIER, chars("."))
OPERATOR = alt(*map(text, (">=", "<=", ">", "<", "=")))
BARS = text("||")


def qualifier(first):
    """A pre-release that may begin without `-`, by one of these characters; and a build."""
    unled = seq(chars(first), star(chars(DIGITS + LETTERS + "-")), star(seq(chars("."), IDENTIFIER)), optional(chars(".")))
    led = seq(chars("-"), IDENTIFIERS)
    return seq(optional(alt(led, unled) if first else led), optional(seq(chars("+"), IDENTIFIERS)))


def partial(wildcards, number, is_loose):
    """One to three components. A number goes on as long as there are digits, so a pre-release begins with none behind it."""
    component = alt(chars(wildcards), number)
    behind_number = qualifier(LETTERS if is_loose else "")
    behind_wildcard = qualifier(LETTERS + DIGITS if is_loose else "")
    third = seq(chars("."), alt(seq(chars(wildcards), behind_wildcard), seq(number, behind_number)))
    return seq(component, optional(seq(chars("."), component, optional(third))))


TILDE = alt(text("~>"), text("~"))
NPM_SEPARATOR = alt(seq(SPACES, alt(text("&&"), text(",")), SPACES), SOME_SPACES)
IGNORED = optional(seq(OPERATOR, SOME_SPACES))


def piece(filled):
    """An alternative, alone or with the `||` that follows it."""
    return alt(optional(filled), seq(alt(optional(filled), SOME_SPACES), BARS))


def grammars(loose, strict):
    """The grammar of each name, whose numbers are these."""
    npm = seq(optional(chars("v")), partial("*xX", loose, True))
    led = seq(star(chars("=")), SPACES, optional(chars("v")), SPACES, npm)
    npm_comparator = alt(seq(IGNORED, alt(TILDE, chars("^")), led), seq(OPERATOR, SPACES, npm), npm)
    hyphen = seq(npm, SOME_SPACES, chars("-"), SOME_SPACES, npm, SPACES)
    normal = partial("*", loose, True)
    normal_comparator = alt(seq(chars("~^"), normal), seq(OPERATOR, SPACES, normal), normal)
    return {
        "npm": piece(alt(hyphen, listed(npm_comparator, NPM_SEPARATOR))),
        "normal": piece(listed(normal_comparator, SOME_SPACES)),
        "strict": seq(optional(chars("~^")), partial("*xX", strict, False)),
    }


def up_to(count):
    """One digit or more, and at most so many."""
    return seq(chars(DIGITS), optional(up_to(count - 1))) if count > 1 else chars(DIGITS)


def lower(digits, first):
    """Numbers of as many digits that are lower, at the first digit that differs; this is the lowest of the first digits."""
    return [
        seq(text(digits[:at]), chars(DIGITS[0 if at else first : int(digits[at])]), *[chars(DIGITS)] * (len(digits) - at - 1))
        for at in range(len(digits))
        if int(digits[at]) > (0 if at else first)
    ]


MOST = str(2**64 - 1)
FITTING = seq(star(chars("0")), alt(up_to(len(MOST) - 1), text(MOST), *lower(MOST, 0)))
STRICT_FITTING = alt(chars("0"), seq(chars(DIGITS[1:]), optional(up_to(len(MOST) - 2))), text(MOST), *lower(MOST, 1))
GRAMMARS = grammars(some(chars(DIGITS)), alt(chars("0"), seq(chars(DIGITS[1:]), star(chars(DIGITS)))))
FITTING_GRAMMARS = grammars(FITTING, STRICT_FITTING)

# ---- the grammar of versions, whose numbers fit in 64 bits
LEAD = seq(optional(chars("=")), SPACES, optional(seq(chars("v"), SPACES)))
NUMBERS = seq(FITTING, chars("."), FITTING, chars("."), FITTING)
VERSION = seq(SPACES, LEAD, NUMBERS, qualifier(LETTERS), SPACES)

# ---- the texts
PIECES = (*"01239xX*va-.+~^><= &,|", "é", "\u3000", "||", " - ", ">=", "1.2.3", "0.0", "-rc.1", "~>", "&&", "== v")


NUMBER_TEXTS = ("0", "1", "42", "007", "18446744073709551615", "18446744073709551616", "9" * 19, "1" + "0" * 19, "0" * 30 + "1")
# Texts of each part of a version, of which one is exchanged, so that most errors stand behind some text of the grammar.
PARTS = (
    ("", " ", "\u3000", "="),
    ("", "v", "v ", " ", "=", "=v\u00a0"),
    *(NUMBER_TEXTS, (".", ".", ".", "", ". ")) * 2,
    NUMBER_TEXTS,
    ("", "-", "-a", "a.b.", "-0.01", "-a..b", "-\u00e9", ".1"),
    ("", "+", "+1.-", "+b.", "+b+c"),
    ("", " ", "\u3000 ", "\u00a0-", " 1"),
)


COMPARATORS = (("", "", "^", "~", "~>", ">=", "< ", "= ", "v"), *(NUMBER_TEXTS, (".", ".", ".x", ".*.", "")) * 2, NUMBER_TEXTS, ("", "", "-a", "+1"))


def random_comparators(source):
    """Comparators of such numbers, most of which are a text of some grammar."""
    count = source.choice((1, 1, 2, 3, 5))
    return source.choice((" ", " ", " - ", ",")).join("".join(map(source.choice, COMPARATORS)) for _ in range(count))


# Comparators, and what separates them: behind two or more, the parser looks only at the rest.
FRONT = ("1", "x", ">=1.2.3", "^0.0", "~ 1", "v1.x", "= 1.2.3-rc.1", "<*")
SEPARATORS = (" ", " ", "  ", "\u3000", ",", " , ", "&& ")


def random_text(source):
    """Characters and parts of ranges, behind a list of comparators or not."""
    count = source.choice((0, 0, 0, 1, 2, 3, 5))
    front = "".join(source.choice(FRONT) + source.choice(SEPARATORS) for _ in range(count))
    return front + "".join(source.choices(PIECES, k=source.randint(0, 12)))


def random_version(source):
    parts = [source.choice(each) for each in PARTS]
    if source.random() < 0.5:
        parts[source.randrange(len(parts))] = source.choice(PIECES)
    return "".join(parts)


def is_text(grammar, given):
    return has_empty(functools.reduce(after, given, grammar))


def too_large(texts):
    """Of each text of a grammar whose numbers don't all fit: the digit with which one no longer does."""
    for given in texts:
        for name, grammar in GRAMMARS.items():
            if is_text(grammar, given) and not is_text(FITTING_GRAMMARS[name], given):
                found = ["0", str(len(given)), str(place(FITTING_GRAMMARS[name], given)), "Number is too large."]
                yield json.dumps([["invalid-pieces", name, given], found])


def rows(texts, versions):
    for given in texts:
        for name, grammar in GRAMMARS.items():
            yield json.dumps([["error-place", name, given], [str(place(grammar, given))]])
    for given in versions:
        yield json.dumps([["error-place", "version", given], [str(place(VERSION, given))]])


def asked_of_ranges(texts):
    """What differs in the place that ranges says of a text that the normalized grammar rejects, unless it is that of a tag."""
    for given in texts:
        if "||" in given or place(GRAMMARS["normal"], given) == 0:
            continue
        arguments = [RANGES, "explain", "--grammar", "normal", "--json", "--", given]
        error = json.loads(subprocess.run(arguments, capture_output=True, timeout=60).stdout).get("error")
        if error and error["start"] != place(GRAMMARS["normal"], given):
            yield f"{given!r}: wanted {place(GRAMMARS['normal'], given)}, found {error}"


def main():
    count = int(sys.argv[1]) if len(sys.argv) > 1 else 100_000
    seed = int(sys.argv[2]) if len(sys.argv) > 2 else 1
    source = random.Random(seed)
    texts = [random_text(source) for _ in range(count)]
    versions = [random_version(source) for _ in range(count // 5)]
    large = list(too_large(random_comparators(source) for _ in range(count // 5)))
    table = [*rows(texts, versions), *large]
    ran = subprocess.run([CONFORMANCE], input="\n".join(table).encode(), capture_output=True)
    printed = ran.stdout.decode()
    # The program prints the rows that differ, and then counts.
    counts = [int(it) for it in re.findall(r"^[\w-]+: \d+ asked, (\d+) differ$|^lines that aren't rows: (\d+)$", printed, re.M) for it in it if it]
    differing = list(asked_of_ranges(texts[:SHOWN]))
    print(*differing[:10], sep="\n", end="\n" if differing else "")
    print(printed, end="")
    if ran.returncode not in (0, 1) or not counts or (sum(counts) == 0) != (ran.returncode == 0):
        print(f"conformance ends with the status {ran.returncode}, and counts {counts}: {ran.stderr.decode()}")
        return 1
    wrong = sum(counts) + len(differing)
    print(f"places: {len(table)} in texts, and {min(count, SHOWN)} that ranges shows; {wrong} differ")
    return 1 if wrong else 0


if __name__ == "__main__":
    sys.exit(main())
