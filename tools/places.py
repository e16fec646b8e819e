#!/usr/bin/env python3
"""Counts the places of each point of docs/DESIGN-PASS.md in crates/*/src: `tools/places.py [COMMIT]`, without one in the work tree."""
import collections, glob, itertools, os, re, subprocess, sys

COMMIT = sys.argv[1] if len(sys.argv) > 1 else None


def run(*command):
    return subprocess.run(command, capture_output=True, text=True, check=True).stdout


def sources():
    if COMMIT:
        for path in run("git", "ls-tree", "-r", "--name-only", COMMIT, "crates").split():
            if "/src/" in path and path.endswith(".rt"):
                yield path, run("git", "show", f"{COMMIT}:{path}")
    else:
        for path in sorted(glob.glob("crates/*/src/**/*.rt", recursive=True)):
            yield path, open(path).read()


def strip(text):
    return "\n".join(re.sub(r"//.*", "", line) for line in text.split("\n"))


FILES = [(path, strip(text)) for path, text in sources()]


def lined(text, at):
    return text.count("\n", 0, at) + 1


def block(text, at):
    """The text of the braces that open at or after `at`."""
    start = text.index("{", at)
    depth = 0
    for i in range(start, len(text)):
        depth += {"{": 1, "}": -1}.get(text[i], 0)
        if depth == 0:
            return text[start + 1 : i]
    return text[start + 1 :]


FUNCTION = re.compile(r"\bfn (\w+)")


def functions(text):
    """Name, line, parameters, clauses, body of each function."""
    for m in FUNCTION.finditer(text):
        if text[m.end() : m.end() + 1] not in "(<":
            continue
        i = text.index("(", m.end())
        depth = 0
        for j in range(i, len(text)):
            depth += {"(": 1, ")": -1}.get(text[j], 0)
            if depth == 0:
                break
        head = text[i + 1 : j]
        rest = text[j + 1 :]
        clauses, k = [], 0
        while True:
            c = re.compile(r"\s*(requires|ensures)\*?[^{;]*").match(rest, k) or re.compile(r"[^{;]*?\b(requires|ensures)\*?[^{;]*").match(rest, k)
            if not c or c.end() >= len(rest) or rest[c.end()] != "{":
                break
            inner = block(rest, c.end())
            clauses.append((c.group(1), " ".join(inner.split())))
            k = c.end() + len(inner) + 2
        b = re.compile(r"[^{;]*").match(rest, k)
        body = block(rest, b.end()) if b.end() < len(rest) and rest[b.end()] == "{" else ""
        yield m.group(1), lined(text, m.start()), head, clauses, body


found = collections.defaultdict(list)


def place(point, path, line, what):
    found[point].append(f"{path}:{line}: {what}")


KINDS = r"(number|code|ending|kind|miss|refusal|accepted|refused|reached|onward|indirect|found)"
for path, text in FILES:
    # 1: enums of two variants, or of one variant that holds something; flags and numbers of kinds in structs; families of numbers
    for m in re.finditer(r"\benum (\w+)[^{]*", text):
        body = re.sub(r"\s+", " ", block(text, m.end()))
        variants = re.findall(r"(\w+)(?: = \d+)?( \{[^}]*\}|\([^)]*\))?,?", re.sub(r"#\[[^]]*\]", "", body))
        holding = [v for v in variants if v[1]]
        if holding and (len(variants) == 2 or len(holding) == 1):
            place(1, path, lined(text, m.start()), f"enum {m.group(1)}")
    for m in re.finditer(r"^\s+(?:pub(?:\(\w+\))? )?" + KINDS + r": (?:bool|u8|u16|u32|usize),$", text, re.M):
        place(1, path, lined(text, m.start(1)), f"field {m.group(1)}")
    family = re.findall(r"^(?:pub(?:\(\w+\))? )?const (\w+): (?:u32|usize|u8) = \d+;$", text, re.M)
    if len(family) >= 4:
        place(1, path, 1, f"{len(family)} numbers: {', '.join(family[:4])} ..")
    for name, line, head, clauses, body in functions(text):
        if re.search(r"number(_of)?$", name) and "match" in body:
            place(1, path, line, f"fn {name}")

# 2: functions of one shape, that is the same but for names and numbers
shapes = collections.defaultdict(list)
KEEP = set("if else match while for in let mut return as true false fn loop break continue".split())
for path, text in FILES:
    for name, line, head, clauses, body in functions(text):
        tokens = re.findall(r"\w+|[^\s\w]", head + " { " + body)
        shape = " ".join(t if t in KEEP or not re.match(r"\w", t) else ("0" if t[0].isdigit() else "x") for t in tokens)
        shape = re.sub(r"\bx(?: : : x)+", "x", shape)
        if len(tokens) >= 25:
            shapes[shape].append((path, line, name))
for shape, group in shapes.items():
    if len(group) > 1:
        for path, line, name in group:
            place(2, path, line, f"fn {name} (one of {len(group)})")

for path, text in FILES:
    # 3: loops that count or step by hand
    for m in re.finditer(r"\bwhile (?!let)", text):
        place(3, path, lined(text, m.start()), text[m.start() : text.index("\n", m.start())].strip())
    # 4: written by hand: equality, the greater and the less, conversion, wrapping, printing
    for name, line, head, clauses, body in functions(text):
        if re.match(r"(same(_\w+)?|is|larger|smaller|later|earlier|least|most|wide8?|low(_word)?|to_(un)?signed|little_endian|\w+_number|print_\w+|write_(judged|ending|ran)|told|judged|at_most_31)$", name):
            place(4, path, line, f"fn {name}")
    for m in re.finditer(r"std::num::\w+|^use std::num::.*wrapping", text, re.M):
        place(4, path, lined(text, m.start()), m.group(0))

# 5: facts in the requires of three functions or more; three parameters that stand together in three functions or more
facts, groups = collections.defaultdict(set), collections.defaultdict(set)
for path, text in FILES:
    crate = path.split("/")[1]
    for name, line, head, clauses, body in functions(text):
        for kind, inner in clauses:
            if kind == "requires":
                for fact in re.split(r" × ", inner):
                    facts[(crate, re.sub(r"\.(now|old)\b", "", fact.strip(" ()")))].add((path, line, name))
        parameters = sorted(" ".join(p.split()) for p in re.findall(r"(\w+: (?:[^,\[\]]|\[[^\]]*\])+)", head))
        for three in itertools.combinations(parameters, 3):
            groups[(crate, three)].add((path, line, name))
for (crate, fact), users in sorted(facts.items()):
    if len(users) >= 3:
        place(5, f"crates/{crate}", 0, f"fact {fact} in {len(users)}")
together = collections.defaultdict(set)
for (crate, three), users in groups.items():
    if len(users) >= 3:
        together[crate].update(n for _, _, n in users)
for crate, names in sorted(together.items()):
    place(5, f"crates/{crate}", 0, f"three parameters or more together, in {len(names)}: {', '.join(sorted(names))}")

for path, text in FILES:
    # 6: a buffer with a length beside; arrays of one length beside each other; a search by hand
    for name, line, head, clauses, body in functions(text):
        if re.search(r"\[u8[];]", head) and re.search(r"\b(length|len|room|end|whole): (usize|u32)", head):
            place(6, path, line, f"fn {name}: a buffer and a length")
        if "middle" in body:
            place(6, path, line, f"fn {name}: a search by hand")
    for kind, pattern in (("const", r"^(?:pub )?const (\w+): \[(\w+); (\d+)\]"), ("field", r"^\s+pub(?:\(\w+\))? (\w+): \[(\w+); (\w+)\],")):
        sizes = collections.defaultdict(list)
        for m in re.finditer(pattern, text, re.M):
            sizes[m.group(3) if kind == "const" else m.group(3)].append((m.group(1), m.start()))
        for size, names in sizes.items():
            if len(names) > 1:
                place(6, path, lined(text, names[0][1]), f"{kind} arrays of {size}: {', '.join(n for n, _ in names)}")
    for name, line, head, clauses, body in functions(text):
        many = re.findall(r"(\w+): &(?:mut )?\[(?:\[\w+; \d+\]|bool|u8|u32); \w+\]", head)
        if len(many) > 1:
            place(6, path, line, f"fn {name}: arrays beside each other: {', '.join(many)}")
    # 7: a switch on which step to run
    for name, line, head, clauses, body in functions(text):
        if re.search(r"\bmatch (group|which|kind|op|number)\b", body) and len(re.findall(r"=> \w+(::\w+)?\(", body)) >= 5:
            place(7, path, line, f"fn {name}")

for point in range(1, 8):
    print(f"point {point}: {len(found[point])}")
    if "-q" not in sys.argv:
        for p in found[point]:
            print(f"    {p}")
counted = "HEAD" if not COMMIT else COMMIT
lines = 0
for path in run("git", "ls-tree", "-r", "--name-only", counted, "crates").split():
    if "/proofs/" in path and path.endswith(".antt"):
        text = run("git", "show", f"{counted}:{path}") if COMMIT else (open(path).read() if os.path.exists(path) else "")
        lines += text.count("\n")
print(f"point 8: {lines} lines of proofs")
