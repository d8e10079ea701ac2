#!/usr/bin/env python3
"""Counts the places of docs/DESIGN-PASS.md in src/ at a commit.

    tools/count_places.py [COMMIT] [--list]

COMMIT is HEAD where none is named, and `.` is the tree as it lies here; `--list` prints each place. A count is of places to
look at: which of them stay, and why, is said beside them in src/ and in the page.
"""
import itertools, re, subprocess, sys
from collections import defaultdict
from pathlib import Path

args = [a for a in sys.argv[1:] if not a.startswith("--")]
commit = args[0] if args else "HEAD"
listing = "--list" in sys.argv


def git(*words):
    return subprocess.run(["git", *words], capture_output=True, text=True, check=True).stdout


def sources():
    if commit == ".":
        names = [str(p) for p in sorted(Path("crates").glob("*/src/**/*.rt"))]
        return [(n, Path(n).read_text()) for n in names]
    names = git("ls-tree", "-r", "--name-only", commit, "crates").split()
    return [(n, git("show", f"{commit}:{n}")) for n in names if re.match(r"crates/\w+/src/.*\.rt$", n)]


# comments and clauses hold no code; lines are kept, so that places keep their numbers
def code(text):
    lines = []
    for line in text.split("\n"):
        clause = re.match(r"\s*(//|ghost use |requires |ensures |ghost )", line)
        lines.append("" if clause else line)
    return "\n".join(lines)


TEXTS = [(n, t, code(t)) for n, t in sources()]
HEADER = re.compile(r"^( *)(?:pub(?:\(crate\))? )?fn (\w+)(<[^(]*>)?\(((?:[^(){}]|\([^()]*\))*)\)(?: -> ([^{\n]+?))?\s*\{", re.M)


# every function: file, line, name, parameters, answer, body
def functions():
    for name, _, text in TEXTS:
        for m in HEADER.finditer(text):
            end = text.find(f"\n{m[1]}}}\n", m.end() - 1)
            body = text[m.end() : end if end >= 0 else None]
            yield name, text.count("\n", 0, m.start()) + 1, m[2], " ".join(m[4].split()), (m[5] or "").strip(), body


FUNCTIONS = list(functions())


def report(title, places):
    places = list(places)
    print(f"{len(places):4}  {title}")
    if listing:
        for place in places:
            print("       ", *place)


def lines(pattern):
    for name, _, text in TEXTS:
        for m in re.finditer(pattern, text, re.M):
            first = text.count("\n", 0, m.start()) + 1
            yield f"{name}:{first}", " ".join(m[0].split())


def clauses(pattern):
    for name, text, _ in TEXTS:
        for m in re.finditer(pattern, text, re.M):
            yield f"{name}:{text.count(chr(10), 0, m.start()) + 1}", m[0].strip()


def places(test):
    return [(f"{f[0]}:{f[1]}", f[2], f[3], "->", f[4]) for f in FUNCTIONS if test(f)]


# the same body but for names, types and numbers
def shapes():
    groups = defaultdict(list)
    for name, line, fn, params, answer, body in FUNCTIONS:
        seen = {}
        words = re.findall(r"\w+|[^\w\s]", body)
        shape = tuple("0" if w[0].isdigit() else seen.setdefault(w, len(seen)) if re.match(r"\w", w) else w for w in words)
        if len(shape) > 12:
            groups[shape].append((f"{name}:{line}", fn))
    return [tuple(" ".join(x) for x in g) for g in groups.values() if len(g) > 1]


# two or more parameters that three or more functions take together
def together():
    groups = defaultdict(set)
    for name, line, fn, params, answer, body in FUNCTIONS:
        names = [p.strip() for p in re.split(r",(?![^<]*>)", params) if ":" in p]
        for pair in itertools.combinations(sorted(names), 2):
            groups[pair].add(f"{name}:{line} {fn}")
    return [(" + ".join(k), f"({len(v)})") for k, v in sorted(groups.items(), key=lambda kv: -len(kv[1])) if len(v) > 2]


# facts required of a caller by three or more functions
def repeated():
    groups = defaultdict(int)
    for name, text, _ in TEXTS:
        for m in re.finditer(r"^ *requires (?:\w+ )?\{ (.*) \}$", text, re.M):
            for fact in re.split(r" × ", m[1]):
                groups[re.sub(r"^\(+|\)+$", "", fact)] += 1
    return [(k, f"({n})") for k, n in groups.items() if n > 2]


print(f"{len(FUNCTIONS)} functions in {len(TEXTS)} files")
report("1  cases that hold a store beside a refusal or an answer", lines(r"^    (?:Open|Refused|Turn|Done|Short)\((?:Cold|Collecting|Applying|Warm)\b[^\n]*"))
report("1  refusals answered in an Option", places(lambda f: re.match(r"Option<(Refusal|RackFault)>", f[4])))
report("1  bool for done or failed: functions that change something and answer bool", places(lambda f: f[4] == "bool" and "&mut" in f[3]))
report("1  returns and arms that pass on what `?` or a method passes on", itertools.chain(lines(r"^ *\} ?else \{\n *return (?:None|false|Err\(.*\)|Ok\(None\));|^ *let .* else \{\n *return (?:None|false|Err\(.*\)|Ok\(None\));"), lines(r"^ *(?:Err\(\w+\)|None) => (?:None|false|Err\(.*\)|Ok\(None\)|.*Refused.*),?$")))
report("1  numbers for kinds, refusals or nothing", lines(r"^ *[\w:]+(?:\(\w+\))? => \d+,$|Refused\(u8\)|^ *(?:pub )?(?:holder: u8|numbers: \[u8; 256\]),"))
report("2  functions of one shape, in groups", shapes())
report("2  types of one shape", lines(r"^pub struct (?:Page|OpenSet|Order|Outline)\b|^struct (?:Order|Outline)\b|^    Build \{"))
report("3  loops over a range of numbers", lines(r"^ *for \w+ in [^{]*\.\.[^{]*\{"))
report("3  other loops that keep an index, an offset or a count by hand", lines(r"^ *while [^{]*\{|\.enumerate\(\)|^ *(?:from|end|at|n|k|sum|sets|count|free) (?:\+= .*|= end|= p\.end\(\));"))
report("4  functions that compare, order, convert or print by hand", places(lambda f: re.fullmatch(r"is_upto|by_\w+|is|has_number|is_named|name_of|finish|reply|put|overwrite|digit|write_byte|write_hex|number|next_head|byte|nth|marked|set_bits", f[2])))
report("5  facts asked of callers by three functions or more", repeated())
report("5  clauses on the length of a block", clauses(r"^ *requires .*length block\.now ≡ 512.*"))
report("5  parameters that three functions or more take together", together())
report("6  arrays with a count beside", lines(r"^ *(?:slots|sizes|sets): \[\w+; \w+\],\n *(?:count|open): u\w+"))
report("6  parallel arrays", lines(r"chosen: &\[bool; \w+\],\n *table: &\[Page; \w+\]|bytes: &'a mut \[u8\],\n *marks: &'a mut \[u8\],\n *left: u64,\n\}|joined: &mut \[u8; \w+\]\) -> usize"))
report("7  arms of a switch by name", lines(r"if is\(name, .*"))
