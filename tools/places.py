#!/usr/bin/env python3
"""Lists the places in crates/*/src that docs/DESIGN-PASS.md counts, by its points: `tools/places.py [POINT]` from the repository's top.

It reads the code as text: a place that it lists is one to look at, and a line of the page says what became of it. Point 8 reads the proofs.
"""
import glob
import re
import sys


def functions():
    """(file, line, name, signature, clauses, body) of each function, tests too."""
    for path in sorted(glob.glob("crates/*/src/**/*.rt", recursive=True)):
        text = open(path).read()
        for m in re.finditer(r"(?m)^([ \t]*)(?:pub )?(?:const )?(?:extern \"C\" )?fn (\w+)", text):
            indent = m[1]
            end = re.compile(rf"(?m)^{indent}\}}$").search(text, m.start())
            if not end:
                continue
            whole = text[m.start() : end.end()]
            brace = re.search(rf"(?m)(^{indent}\{{$|\{{$)", whole)
            body_at = None
            for b in re.finditer(r"\{$", whole, re.M):
                body_at = b.start()
                break
            head, body = whole[:body_at], whole[body_at:]
            yield path, text.count("\n", 0, m.start()) + 1, m[2], head, body, indent


def show(path, line, what):
    return f"{path.removeprefix('crates/')}:{line}: {what}"


def by_line(pattern):
    for path in sorted(glob.glob("crates/*/src/**/*.rt", recursive=True)):
        for n, line in enumerate(open(path), 1):
            if not line.lstrip().startswith("//"):
                for m in re.finditer(pattern, line):
                    yield path, n, line.strip()[:110]


def point_1():
    """own enums; flags among values; numbers for kinds, refusals and verdicts"""
    for path, n, line in by_line(r"^(pub )?enum "):
        yield show(path, n, line)
    for path, n, line in by_line(r"^\s+(pub )?\w+: bool,$"):
        yield show(path, n, "a flag beside values: " + line)
    for path, n, line in by_line(r"^\s*(pub )?const (TRUE|FALSE|UNDEF|NO_REASON|CLAUSE|SOLVE|NO_MODEL|IS_TAKEN|NO_STORAGE|MINIMISING): "):
        yield show(path, n, line)
    for path, n, line in by_line(r"\b(kind|answer|cause|number|why|mode|phase|refusal|refused_at): &?(mut )?u(32|64)\b"):
        yield show(path, n, "a number: " + line)


def shape(body):
    words = re.sub(r"//[^\n]*", "", body)
    words = re.sub(r"\b(?!(?:if|else|while|for|in|return|let|mut|match|true|false|loop|as)\b)[A-Za-z_]\w*(::\w+)*", "n", words)
    return re.sub(r"\s+", " ", re.sub(r"\d\w*", "0", words)).strip()


def point_2():
    """functions of the same shape, or of the same name in two crates"""
    shapes, names = {}, {}
    for path, n, name, head, body, _ in functions():
        shapes.setdefault((shape(body), head.count(",")), []).append((path, n, name))
        names.setdefault(name, {}).setdefault(path.split("/")[1], (path, n))
    for (text, _), all_ in sorted(shapes.items(), key=lambda kv: kv[1]):
        if len(all_) > 1 and len(text) > 12:
            yield "same shape: " + "; ".join(show(p, n, name) for p, n, name in all_)
    for name, crates in sorted(names.items()):
        if len(crates) > 1 and name != "main":
            yield f"same name: {name}: " + ", ".join(f"{p.removeprefix('crates/')}:{n}" for p, n in crates.values())


def point_3():
    """loops that count by hand"""
    for path, n, name, head, body, _ in functions():
        at = n + head.count("\n")
        for m in re.finditer(r"(?m)^([ \t]*)(while .*|loop) \{$", body):
            end = re.compile(rf"(?m)^{m[1]}\}}").search(body, m.end())
            inside = body[m.end() : end.start()]
            if re.search(r"\b\w+ (\+|-)= 1;|\b\w+ = \w+ (\+|-) 1;", inside) or re.search(r"\b\w+ = end \+ 1;", inside):
                yield show(path, at + body.count("\n", 0, m.start()), f"{name}: {m[2]}")
        for m in re.finditer(r"(?m)^([ \t]*)for (\w+) in (.*)\.\.(.*) \{$", body):
            end = re.compile(rf"(?m)^{m[1]}\}}").search(body, m.end())
            if re.search(rf"\[[^\]]*\b{m[2]}\b[^\]]*\]", body[m.end() : end.start()]):
                yield show(path, at + body.count("\n", 0, m.start()), f"{name}: for {m[2]} in {m[3]}..{m[4]}")


def point_4():
    """equality, order, copying, conversion and printing by hand"""
    for path, n, line in by_line(r"\w\.0 (==|!=|<|<=) \w+\.0\b"):
        yield show(path, n, line)
    for path, n, name, head, body, _ in functions():
        if re.fullmatch(r"\{\s*\w+ as \w+\s*\}", body.strip()):
            yield show(path, n, f"conversion: {name}")
    for path, n, line in by_line(r"\b(\w+): \1(,|$)"):
        yield show(path, n, "field spelt twice: " + line)
    for path, n, line in by_line(r"^\s*impl(<.*>)? (Clone|Copy|PartialEq|Eq|PartialOrd|Ord|Debug) for "):
        yield show(path, n, line)


def point_5():
    """facts in the `requires` of three or more functions; parameters that travel together"""
    facts = {}
    groups = [("d", "h", "work"), ("g", "h", "work"), ("g", "x", "work"), ("d", "h", "s"), ("d", "s"), ("script", "at"), ("text", "at"), ("out", "at"), ("script", "room", "used"), ("work", "activities", "out"), ("work", "act", "out"), ("act", "inc"), ("d", "work"), ("conflicts", "recent"), ("to", "at"), ("table", "at"), ("r", "at")]
    seen = {g: [] for g in groups}
    for path, n, name, head, body, _ in functions():
        here = set()
        for clause in re.findall(r"requires[^{]*\{(.*)\}", head):
            for word in re.findall(r"(?:^|[(×]|→)\s*([A-Z]\w*) ", clause.strip()):
                here.add(word)
        for word in here:
            facts.setdefault(word, []).append(show(path, n, name))
        params = re.findall(r"(\w+): ", head[: head.find("requires") if "requires" in head else len(head)])
        for g in groups:
            if all(p in params for p in g):
                seen[g].append(show(path, n, name))
    for word, all_ in sorted(facts.items(), key=lambda kv: -len(kv[1])):
        if len(all_) >= 3:
            yield f"fact {word}: {len(all_)} functions: " + "; ".join(all_[:3]) + " .."
    for g, all_ in seen.items():
        if len(all_) >= 3:
            yield f"parameters ({', '.join(g)}): {len(all_)} functions: " + "; ".join(all_[:3]) + " .."


def point_6():
    """slices with a length or a place beside them"""
    for path, n, name, head, body, _ in functions():
        sig = head[: head.find("requires") if "requires" in head else len(head)]
        sig = sig[: sig.find("ensures") if "ensures" in sig else len(sig)]
        if re.search(r"&('\w+ )?(mut )?\[\w+\]", sig) and re.search(r"\b(at|used|room|n|from|o|left|to|count): usize", sig):
            yield show(path, n, name)


def point_7():
    """switches on a step, tables of functions"""
    for path, n, name, head, body, _ in functions():
        for m in re.finditer(r"(?s)(if (\w+) == [\w:]+ \{\n[^{}]*\}\n\s*){3,}", body):
            yield show(path, n + head.count("\n") + body.count("\n", 0, m.start()), f"{name}: tests of {m[2]}")
    for path, n, line in by_line(r"\bfn\(|\[fn\b|: fn\b"):
        yield show(path, n, line)


def point_8():
    """answers, and lets that nothing uses"""
    answers = lets = 0
    for path in glob.glob("crates/*/proofs/**/Answers.antt", recursive=True):
        text = open(path).read()
        for block in re.split(r"(?m)^(?=pub )", text):
            answers += block.startswith("pub ")
            for m in re.finditer(r"(?m)^    let (\w+) = c in$", block):
                rest = block[m.end() :]
                if not re.search(rf"\b{m[1]}\b", rest):
                    lets += 1
    yield f"{answers} answers in {len(glob.glob('crates/*/proofs/**/Answers.antt', recursive=True))} files"
    yield f"{lets} lets of c that nothing uses"


POINTS = [point_1, point_2, point_3, point_4, point_5, point_6, point_7, point_8]

if __name__ == "__main__":
    wanted = [int(a) for a in sys.argv[1:]] or range(1, 9)
    for k in wanted:
        found = list(POINTS[k - 1]())
        print(f"point {k}, {POINTS[k - 1].__doc__}: {len(found)}")
        if sys.argv[1:]:
            print("\n".join("  " + it for it in found))
