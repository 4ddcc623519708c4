#!/usr/bin/env python3
"""Lists places in crates/*/src that read like older Rattle, a heading for each kind.

    python3 tools/places.py [COMMIT]      of the work tree, or of a commit

It reads the text alone, so a place that it lists is a place to look at. It counts nothing away.
"""
import collections
import re
import subprocess
import sys


def sources(commit):
    ask = ["git", "ls-tree", "-r", "--name-only", commit] if commit else ["git", "ls-files"]
    names = subprocess.run(ask, capture_output=True, text=True, check=True).stdout.split("\n")
    for name in names:
        if commit:
            read = lambda: subprocess.run(["git", "show", f"{commit}:{name}"], capture_output=True, text=True, check=True).stdout
        else:
            read = lambda: open(name, encoding="utf-8").read()
        yield name, read


def blocks(text, head):
    """The text of each item that a head begins, to its closing brace."""
    for m in re.finditer(head, text, re.M):
        # the body's brace stands alone or ends the head's line; clauses have theirs on one line
        depth, k = 0, m.start()
        body = None
        while k < len(text):
            c = text[k]
            if c == "{":
                if depth == 0:
                    body = k
                depth += 1
            elif c == "}":
                depth -= 1
                if depth == 0:
                    line_end = text.find("\n", k)
                    whole = text[body:k + 1]
                    rest = text[k + 1:line_end if line_end >= 0 else len(text)]
                    if "\n" in whole or not re.match(r"\s*$", rest) or not re.match(r"\s*(ensures|requires|\{)", text[line_end + 1:]):
                        yield m, text[m.start():body], whole, text.count("\n", 0, m.start()) + 1
                        break
            elif c == ";" and depth == 0 and text[k + 1:k + 2] == "\n":
                break
            k += 1


def functions(text):
    return blocks(text, r"^ *(pub(\([a-z]+\))? )?fn \w+")


def clauses(head):
    return re.findall(r"(requires|ensures)\*?(?: \w+)? \{(.*)\}\s*$", head, re.M)


def shape(body):
    words = re.findall(r"[A-Za-z_]\w*|\d[\d_]*|\"[^\"]*\"|'[^']*'|\S", re.sub(r"//[^\n]*", "", body))
    keep = {"match", "if", "else", "for", "in", "let", "mut", "return", "self", "Ok", "Err", "Some", "None", "while"}
    return tuple(w if w in keep or not re.match(r"[A-Za-z_\d\"']", w) else "x" for w in words)


def main():
    commit = sys.argv[1] if len(sys.argv) > 1 else None
    found = collections.OrderedDict()

    def add(kind, place):
        found.setdefault(kind, []).append(place)

    shapes, groups, facts, enums = (collections.defaultdict(list) for _ in range(4))
    proofs = collections.Counter()
    for name, read in sources(commit):
        if re.match(r"crates/\w+/proofs/.*\.antt$", name):
            text = read()
            proofs["lines"] += text.count("\n")
            proofs["answers"] += len(re.findall(r"^(?:abbrev )?pub \S+ : goal\.", text, re.M))
            continue
        if not re.match(r"crates/\w+/src/.*\.rt$", name):
            continue
        text = read()
        at = lambda i: f"{name}:{text.count(chr(10), 0, i) + 1}"
        for m in re.finditer(r"\bErr\((\w+)\) => (?:return )?Err\(\1\)|\bNone => (?:return )?None\b", text):
            add("1 an error or a lack handed on by hand", at(m.start()))
        for m in re.finditer(r"^ +(?:pub )?(\w+): bool,|^ +(?:pub )?(meter|noie|code|characters|kind|letter): u8,", text, re.M):
            add("1 a flag, or a number for a kind, among the fields of a struct or a case", at(m.start()) + " " + (m.group(1) or m.group(2)))
        for m in re.finditer(r"-> Option<\(\w+, bool\)>", text):
            add("1 a value and a flag as a pair", at(m.start()))
        for m, head, body, line in blocks(text, r"^ *(pub(\([a-z]+\))? )?enum \w+"):
            names = frozenset(re.findall(r"^    (\w+)(?: \{|\(|,)", body, re.M))
            enums[name + ":" + str(line) + " " + m.group(0).split()[-1]] = names
        for m, head, body, line in functions(text):
            fn = re.search(r"fn (\w+)", head).group(1)
            key = shape(body)
            if len(key) >= 9:
                shapes[key].append(f"{name}:{line} {fn}")
            for f in re.finditer(r"for \(?(\w+)(?:, \w+)?\)? in (0\.\.[^{]*)\{", body):
                if re.search(r"\[" + f.group(1) + r"( as usize)?\]", body):
                    add("3 a loop that indexes by its counter", f"{name}:{line} {fn}: {f.group(2).strip()}")
            for f in re.finditer(r"for \((\w+), \w+\) in [^{]*enumerate\(\) \{((?:[^{}]|\{[^{}]*\})*)\}", body):
                if re.search(r"\[" + f.group(1) + r"( as usize)?\]", f.group(2)):
                    add("3 a walk that indexes another list by its counter", f"{name}:{line} {fn}")
            if re.search(r"\bwhile\b|\bloop \{", body):
                add("3 a while or a loop", f"{name}:{line} {fn}")
            if re.match(r"(from|to)_\w+$", fn) and not re.search(r"#\[test\]", text[max(0, m.start() - 12):m.start()]):
                add("4 a conversion under a name of its own", f"{name}:{line} {fn}")
            if re.match(r"(eq|ne|cmp|partial_cmp|clone|hash)$", fn):
                add("4 equality, order or copying by hand", f"{name}:{line} {fn}")
            if re.match(r"(tell|print|show|write)\w*$", fn) and "print" in body and "HostRuntime" not in head:
                add("4 a value printed by a function of its own", f"{name}:{line} {fn}")
            for w in re.finditer(r"let (number|words) = (refusal|answer)[\w.()]*;", body):
                add("4 a refusal taken apart to be printed", f"{name}:{line} {fn}")
            params = re.findall(r"(\w+): ([^,()]+(?:<[^()]*>)?)", head[head.find("("):head.find(")")])
            names = [p for p, _ in params]
            for i in range(len(names)):
                for n in (3, 4, 5):
                    if i + n <= len(names):
                        groups[tuple(names[i:i + n])].append(f"{name}:{line} {fn}")
            for kind, fact in set(clauses(head)):
                facts[kind + " " + re.sub(r"\s+", " ", fact.strip())].append(f"{name}:{line} {fn}")
        for m, head, body, line in blocks(text, r"^ *(pub(\([a-z]+\))? )?struct \w+"):
            fields = re.findall(r"^    (?:pub(?:\([a-z]+\))? )?(\w+): (.*),$", body, re.M)
            lists = [(f, t) for f, t in fields if t.startswith("[") or re.match(r"&('\w+ )?mut \[", t)]
            sizes = [f for f, t in fields if t == "usize"]
            if lists and sizes:
                add("6 a list with a length or a place beside it", f"{name}:{line} " + m.group(0).split()[-1] + ": " + ", ".join([f for f, _ in lists] + sizes))
            same = collections.Counter(t for _, t in lists if t.startswith("["))
            for t, n in same.items():
                if n > 1:
                    add("6 arrays beside one another", f"{name}:{line} " + m.group(0).split()[-1] + f": {n} of {t}")
        for m in re.finditer(r"match \w+ \{((?:\s+[\w:| ]+ => \w+\([\w:(), ]*\),\n?){6,})", text):
            add("7 a match that only chooses which step to run", at(m.start()))
        for m in re.finditer(r"\bdyn \w+|\bfn\(", text):
            add("7 a function pointer or a dyn value", at(m.start()))
    for a in enums:
        for b in enums:
            if a < b and len(enums[a] & enums[b]) >= 4:
                add("1 an enum that repeats the cases of another", f"{a} and {b}: " + ", ".join(sorted(enums[a] & enums[b])))
    for key, where in shapes.items():
        if len(where) > 1:
            add("2 functions of one shape", f"{len(where)}: " + "; ".join(where))
    for key, where in groups.items():
        if len(where) >= 3 and not any(set(key) < set(k) and len(w) == len(where) for k, w in groups.items()):
            add("5 parameters that travel together", f"{len(where)}: ({', '.join(key)}) " + "; ".join(where[:4]) + (" .." if len(where) > 4 else ""))
    for fact, where in facts.items():
        if len(where) >= 3 and len(fact) > 24:
            add("5 a clause in three functions or more", f"{len(where)}: {fact} ({where[0]} ..)")
    for kind in sorted(found):
        print(f"{kind}: {len(found[kind])}")
        for place in found[kind]:
            print("   ", place)
    print(f"8 proofs: {proofs['answers']} answers and invariants, {proofs['lines']} lines in all")


main()
