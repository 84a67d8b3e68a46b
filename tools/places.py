#!/usr/bin/env python3
"""tools/places.py [ROOT]   counts in crates/*/src the places that docs/DESIGN-PASS.md speaks of, a line for each, and a sum for each point."""
import glob, os, re, sys

root = sys.argv[1] if len(sys.argv) > 1 else "."
files = sorted(glob.glob(f"{root}/crates/*/src/*.rt"))
text = {os.path.relpath(f, root + "/crates"): open(f, encoding="utf-8").read() for f in files}
# `promises` calls every public function once more, by its name and with its parameters: what stands there is counted where it is first.
code = {f: t for f, t in text.items() if not f.startswith("promises/")}


def lines(t):
    return [(n, l) for n, l in enumerate(t.split("\n"), 1) if not l.lstrip().startswith("//")]


def say(point, found):
    print(f"point {point}: {len(found)}")
    for f in found:
        print("   ", f)


def functions(t):
    """name, parameters, requires clause, body and line of each function."""
    for m in re.finditer(r"^( *)(?:pub(?:\(crate\))? )?(?:extern \"C\" )?(?:final )?fn (\w+)(?:<[^>]*>)?\(", t, re.M):
        depth, k = 1, m.end()
        while depth:
            depth += {"(": 1, ")": -1}.get(t[k], 0)
            k += 1
        head_end = re.search(r"\n" + m[1] + r"\{\n|\{\n", t[k:])
        start = k + (head_end.start() if head_end else 0)
        head = t[k:start]
        body_end = t.find("\n" + m[1] + "}", start)
        yield m[2], t[m.end():k - 1], head, t[start:body_end], t[:m.start()].count("\n") + 1


# 1: own enums of the shape of Option or Result, a flag or a number beside a value, numbers for refusals
one = []
for f, t in code.items():
    for m in re.finditer(r"enum (\w+) \{(.*?)\n\}", t, re.S):
        variants = re.findall(r"^\s+(\w+)(\(.*\))?,", m[2], re.M)
        if len(variants) == 2 and sum(bool(v[1]) for v in variants) >= 1:
            one.append(f"{f}: enum {m[1]} of the shape of Option or Result")
    for m in re.finditer(r"struct (\w+)(?:<[^>]*>)? \{(.*?)\n\}", t, re.S):
        if re.search(r"^\s+(pub )?(found|more|refusal|number|known|some|ok): (bool|u8),", m[2], re.M):
            one.append(f"{f}: struct {m[1]} has a flag or a number beside a value")
    for name, params, head, body, line in functions(t):
        if re.search(r"->\s*u8", head) and len(re.findall(r"return (?:\d+|number|why);", body)) >= 1 and re.search(r"refus|number|fit", name):
            one.append(f"{f}:{line}: {name} answers with a number for a refusal")
say(1, one)

# 2: functions whose bodies are the same but for types, sizes, constants and the words item and bidder
def bare(s):
    s = re.sub(r"\b(items?|bidders?|i|b|k|s|g|h|t)\b", "x", s)
    s = re.sub(r"_(items?|bidders?)\b", "_x", s)
    s = re.sub(r"\b(u8|u16|u32|u64|usize)\b", "u", s)
    s = re.sub(r"\b(0x[0-9a-f_]+|\d+)(u\d+)?\b", "0", s)
    return re.sub(r"\s+", " ", s)
same = {}
for f, t in code.items():
    if re.search(r"_c/|exports", f):
        continue
    for name, params, head, body, line in functions(t):
        if len(body) > 15:
            same.setdefault(bare(body), []).append(f"{f}:{line}: {name}")
say(2, [", ".join(v) for v in same.values() if len(v) > 1])

# 3: loops that count an index by hand
three = []
for f, t in code.items():
    for name, params, head, body, line in functions(t):
        for m in re.finditer(r"while (.*?) \{", body):
            var = re.findall(r"\w+", m[1])
            if any(re.search(rf"\b{v} [+-]= \d+;", body) for v in var if not v.isdigit()):
                three.append(f"{f}: {name}: while {m[1]}")
say(3, three)

# 4: conversions, equality and copies by hand: functions of one `as`, of a match from variants to numbers or back, and comparisons place by place
four = []
for f, t in code.items():
    for name, params, head, body, line in functions(t):
        inner = body.strip().lstrip("{").strip()
        if re.fullmatch(r"\w+(\.\w+)* as \w+", inner):
            four.append(f"{f}:{line}: {name} is one cast")
        elif re.match(r"if \w+ \{\s*return 1;\s*\}\s*0", inner):
            four.append(f"{f}:{line}: {name} makes a number of a bool")
        elif re.search(r"::\w+ => \d,", inner) or re.search(r"== \d \{\s*return \w+::\w+;", inner):
            four.append(f"{f}:{line}: {name} is a conversion by cases")
        elif re.match(r"same|differ", name):
            four.append(f"{f}:{line}: {name} compares by hand")
        elif re.match(r"if a < b \{|if b < a \{|if x < y \{", inner):
            four.append(f"{f}:{line}: {name} is min, max or a difference by hand")
say(4, four)

# 5: a conjunct that stands in the `requires` of three or more functions of a crate, and three or more parameters that travel together through three or more private functions
five = []
facts, groups = {}, {}
for f, t in code.items():
    crate = f.split("/")[0]
    for name, params, head, body, line in functions(t):
        r = re.search(r"requires \{(.*?)\}\s*(?:ensures|$)", head, re.S)
        if r:
            for c in re.split(r"×(?![^(]*\))", r[1]):
                c = re.sub(r"\s+", " ", c).strip().strip("()")
                facts.setdefault((crate, c), []).append(name)
for (crate, c), names in facts.items():
    if len(names) >= 3:
        five.append(f"{crate}: {c} in {', '.join(names)}")
say(5, five)

# 6: arrays with a count or a length beside, in one struct or one list of parameters
six = []
for f, t in code.items():
    for m in re.finditer(r"struct (\w+)(?:<[^>]*>)? \{(.*?)\n\}", t, re.S):
        if re.search(r"\[\w+; \d+\]", m[2]) and re.search(r"(len|length|count|size): usize", m[2]):
            six.append(f"{f}: struct {m[1]}")
say(6, six)

# 7: a bool that says which step to run
seven = []
for f, t in code.items():
    for name, params, head, body, line in functions(t):
        for m in re.finditer(r"\b(falls|on|off|raise|up|rising): bool", params):
            seven.append(f"{f}:{line}: {name}({m[1]})")
say(7, seven)

# 8: lines of answers and invariants, and raw names in them
answers = glob.glob(f"{root}/crates/*/proofs/**/Answers.antt", recursive=True)
invariants = glob.glob(f"{root}/crates/*/proofs/**/Invariants.antt", recursive=True)
rows = lambda fs: sum(open(f, encoding="utf-8").read().count("\n") for f in fs)
raw = sum(len(re.findall(r"\.(?:true|false)-raw", open(f, encoding="utf-8").read())) for f in answers)
print(f"point 8: {len(answers)} files of answers with {rows(answers)} lines, {len(invariants)} files of invariants with {rows(invariants)} lines, {raw} raw names")
