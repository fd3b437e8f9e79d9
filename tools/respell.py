#!/usr/bin/env python3
"""Brings the repository's own names in specs, proofs and contracts to today's spelling.

Run it once, at the top of the repository, after port.py (`rt fmt` then changes nothing):

  python3 tools/respell.py [MAP.tsv]

Rattle's style has words (definitions, fields, constructors, variables) in snake case, facts and types in upper camel case, and a
dash in a lemma's name only where it joins two names (CONTRACT_STYLE.md, "Names"). port.py leaves the names that a repository
declares itself as they were, in kebab case.

It reads the declarations of crates/*/specs and of the few modules of proofs/ that are no Proof.antt, and makes one map, an old name
to one new name, which holds for the whole repository:

- a definition, field, constructor or variable: each dash is an underscore;
- a type, and a definition that answers `Type 0`: upper camel case;
- a lemma: it is cut into the longest pieces that are names of definitions (of the repository or of STD, and not PLAIN); a dash stays
  between two such names that stand side by side, and is an underscore elsewhere;
- EXCEPTIONS goes before all that.

Then it turns whole tokens. What a file imports from the kit or from a generated module stays in that file, and so do strings,
operators and Rust's names. In a Proof.antt only what is imported from the specs is turned, and a field where it stands as one. In
comments and in the code spans of pages a token with a dash is turned. Edits of must-fail/ and tools/wrong_definitions.py cite the text
of the sources, so they follow.

It writes nothing, and fails, where two names of one file would fall together, or two declared names would become one; EXCEPTIONS
then has to tell them apart. APART lists pairs that never meet in one scope. With MAP.tsv it writes the map there.
"""
import glob
import os
import re
import sys

# old name: new name. Either a name that the rule would spell like another one, or a name that is a tactic's.
EXCEPTIONS = {
    # the field of Entry: `ground` is a tactic
    "ground": "grounds",
    # a definition that answers Type 0, opaque
    "Solved-at": "SolvedAt",
    # port.py's spelling of getD-tabulate and getD-map
    "get_d_tabulate": "get_or-tabulate",
    "get_d_map": "get_or-map",
}

# new names that two old names may share: they never meet in one scope
APART = {
    # a field of store's Room, and the Rust field of Sizes that it bounds
    "lit_room",
}

# words of prose that are spelled like a name of the map, and stay where they stand bare in a comment
PROSE = {
}

# words of the kit's std that a lemma's name joins
STD = set("""length get_or take drop set map append replicate split reverse filter zip sum min max div mod suc zero cons all any
concat tabulate slice nat_le nat_lt fold foldl foldr elem index pred""".split())

# definitions whose names are plain words, and mostly stand for those in a lemma's name
PLAIN = set("""more end ends same other less most good wrong first second rest full start starts over stop stays kept left right
turn step gives goes ran put out before after behind later then holds one given past gone done found found_out within until
""".split())

CRATES = set(os.listdir("crates"))
KIT = {"Prim", "lib", "mathlib", "borrow", "native", "denote"}
WORD = r"[^\s(){},;\"`.\\]+"
CHAIN = re.compile(r"\.?" + WORD + r"(?:\." + WORD + r")*")
USE = re.compile(r"^(\s*)(?:pub )?(?:ghost )?(?:pub )?use ([^\s{;]+?)(?:\.\{([^}]*)\})?(?: as (\S+?))?;?$")


def spec_files():
    return sorted(glob.glob("crates/*/specs/**/*.antt", recursive=True) + [
        f for f in glob.glob("crates/*/proofs/**/*.antt", recursive=True) if not f.endswith("/Proof.antt")])


def cut(text, rust):
    """(kind, text): code, string or comment"""
    out, i, start, n = [], 0, 0, len(text)
    mark = "//" if rust else "--"
    while i < n:
        c = text[i]
        if c == '"':
            j = i + 1
            while j < n and text[j] != '"':
                j += 2 if text[j] == "\\" else 1
            out += [("code", text[start:i]), ("string", text[i:j + 1])]
            i = start = j + 1
        elif rust and re.match(r"b?'(\\.|[^'\\\n])'", text[i:i + 5]):
            i += re.match(r"b?'(\\.|[^'\\\n])'", text[i:i + 5]).end()
        elif text.startswith(mark, i) and (rust or i == 0 or text[i - 1] in " \t\n(){};"):
            j = text.find("\n", i)
            j = n if j < 0 else j
            out += [("code", text[start:i]), ("comment", text[i:j])]
            i = start = j
        else:
            i += 1
    out.append(("code", text[start:]))
    return out


def ours(path):
    """whether a module's path is one of the repository's specs"""
    p = path.split(".")
    if len(p) < 3 or p[0] != "Rattle" or p[1] not in CRATES:
        return False
    if p[2] == "specs":
        return "declared" not in p and "contracts" not in p
    return p[1:4] in (["reader", "proofs", "Thin"], ["reader", "proofs", "Lib"])


def imports(text):
    """names from the kit or from generated modules; names from our specs; aliases of the first; aliases of ours"""
    kit, own, kit_modules, own_modules = set(), set(), set(), set()
    for line in text.split("\n"):
        m = USE.match(line)
        if not m:
            continue
        _, path, names, alias = m.groups()
        mine = ours(path)
        if names is None:
            (own_modules if mine else kit_modules).add(alias or path.split(".")[-1])
            continue
        for name in names.split(","):
            name = name.strip()
            if " as " in name:
                old, new = name.split(" as ")
                (own if mine else kit).add(old.strip().split(".")[-1])
                own.add(new.strip())
            elif name:
                (own if mine else kit).add(name.split(".")[-1])
    return kit, own - kit, kit_modules, own_modules


def declarations(text):
    """(kind, name, fact) of each declaration: word, type, field, constructor, lemma, local"""
    out, blocks, header = [], [], None
    lines = "".join(t if k != "comment" else "" for k, t in cut(text, False)).split("\n")
    for n, line in enumerate(lines):
        if not line.strip():
            continue
        indent = len(line) - len(line.lstrip())
        s = line.strip()
        while blocks and indent <= blocks[-1][1]:
            blocks.pop()
        kind = blocks[-1][0] if blocks else "module"
        if s == "where" and header is None:
            blocks.append(("local", indent))
            continue
        m = re.match(r"(?:pub )?(record|data|module) (\S+)", s)
        if m and (m.group(1) != "record" or not s.startswith("record {")):
            header = (m.group(1), indent)
            if m.group(1) != "module":
                out.append(("type", m.group(2), False))
        if header is not None:
            if s.endswith("where"):
                blocks.append(header)
                header = None
            elif re.match(r"(?:pub )?(record|data|module) ", s) is None and indent <= header[1]:
                header = None
            continue
        m = re.match(r"(abbrev|unfoldable) (?:pub )?(\S+) :(.*)", s)
        if m:
            rest = m.group(3)
            for more in lines[n + 1:]:
                if more.strip() and len(more) - len(more.lstrip()) > indent + 2:
                    rest += " " + more.strip()
                else:
                    break
            fact = re.search(r"Type 0$", rest.strip()) is not None
            out.append(("local" if kind == "local" else "word", m.group(2), fact))
            continue
        m = re.match(r"(?:pub )?([^\s(){},;.=]+(?: [^\s(){},;.=]+)*) :(\s|$)", s)
        if m:
            names = m.group(1).split()
            if names[0] in ("let", "λ", "|", "in", "∀", "elim", "→", "use", "unfolding", "rw"):
                continue
            what = {"record": "field", "data": "constructor", "local": "local"}.get(kind, "lemma")
            out += [(what, x, False) for x in names]
    return out


def snake(name):
    return re.sub(r"(?<=[\w'?])-(?=\w)", "_", name)


def camel(name):
    return "".join(p[:1].upper() + p[1:] for p in re.split(r"[-_]", name))


def lemma(name, known):
    """a dash stays between two known names"""
    pieces = ["get_or" if p == "getD" else p for p in re.split(r"(?<=[\w'?])-(?=\w)", name)]
    parts, i = [], 0
    while i < len(pieces):
        for j in range(len(pieces), i, -1):
            word = "_".join(pieces[i:j])
            if word in known:
                parts.append((word, True))
                break
        else:
            j = i + 1
            parts.append((pieces[i], False))
        i = j
    out = parts[0][0]
    for (_, before), (word, after) in zip(parts, parts[1:]):
        out += ("-" if before and after else "_") + word
    return out


def the_map():
    kinds, facts, tokens = {}, set(), set()
    for f in spec_files():
        text = open(f).read()
        kit, _, _, _ = imports(text)
        for kind, name, fact in declarations(text):
            if "◌" in name:
                continue
            kinds.setdefault(name, set()).add(kind)
            if fact and kind == "word":
                facts.add(name)
        for kind, part in cut(text, False):
            if kind == "code":
                for c in CHAIN.findall(part):
                    tokens |= {t for t in c.split(".") if t not in kit}
    for f in glob.glob("crates/*/src/**/*.rt", recursive=True):
        text = open(f).read()
        kit, own, _, _ = imports(text)
        tokens |= own
    words = {n for n, k in kinds.items() if k & {"word", "type"}}
    known = ({snake(n) for n in words if len(n) > 2} | STD) - PLAIN
    # what is seen in code and declared nowhere is a variable, if it is no name of the kit
    kit_names = set()
    for f in spec_files():
        kit, _, _, _ = imports(open(f).read())
        kit_names |= kit
    out = {}
    for name in sorted(set(kinds) | tokens):
        k = kinds.get(name, set())
        if name in EXCEPTIONS:
            new = EXCEPTIONS[name]
        elif name in facts and (not name[0].isupper() or "-" in name) or k & {"word", "type"} and re.match(r"[A-Z]\w*[a-z]\w*-", name):
            new = camel(name)
        elif k & {"word", "type", "field", "constructor"}:
            new = snake(name)
        elif "lemma" in k:
            new = lemma(name, known)
        elif k or (name not in kit_names and re.match(r"\w[\w'?]*(-[\w'?]+)+$", name)):
            new = snake(name)
        else:
            continue
        if new != name:
            out[name] = new
    return out, kinds


def turn_code(part, names, fields, env, proof, state):
    """turns the chains of code; `state` is what stood before"""
    kit, own, kit_modules, own_modules = env
    out, at = "", 0
    for m in CHAIN.finditer(part):
        gap = part[at:m.start()]
        if gap.strip():
            state["before"] = gap.strip()[-1]
        chain = m.group(0)
        after = part[m.end():].lstrip()[:2]
        out += gap + turn_chain(chain, names, fields, kit, own, kit_modules, own_modules, proof, state["before"], after)
        state["before"] = chain
        at = m.end()
    if part[at:].strip():
        state["before"] = part[at:].strip()[-1]
    return out + part[at:]


def turn_chain(chain, names, fields, kit, own, kit_modules, own_modules, proof, before, after):
    lead = chain.startswith(".")
    parts = chain[1:].split(".") if lead else chain.split(".")
    first = parts[0]
    if not lead and len(parts) > 1 and (first in KIT or first in kit_modules or first == "Rattle" and not ours(chain)):
        return chain
    mine = not lead and len(parts) > 1 and (first in own_modules or first == "Rattle")
    new = []
    for i, p in enumerate(parts):
        as_field = lead or i > 0
        if p not in names:
            new.append(p)
        elif as_field:
            new.append(names[p] if mine or not proof or p in fields else p)
        elif proof:
            in_record = before in ("{", ";") and after.startswith("=") and p in fields
            new.append(names[p] if p in own or in_record else p)
        else:
            in_record = before in ("{", ";") and after.startswith("=") and p in fields
            new.append(p if p in kit and not in_record else names[p])
    return ("." if lead else "") + ".".join(new)


def turn_use(line, names):
    m = USE.match(line)
    _, path, braces, alias = m.groups()
    if braces is not None:
        def one(name):
            name = name.strip()
            old, _, new = name.partition(" as ")
            if ours(path):
                old = ".".join(names.get(p, p) for p in old.split("."))
            return old + (" as " + names.get(new, new) if new else "")
        at = line.index("{")
        line = line[:at + 1] + ", ".join(one(x) for x in braces.split(",")) + line[line.index("}"):]
    elif alias is not None and alias in names:
        line = re.sub(r" as " + re.escape(alias) + r"(?=;?$)", " as " + names[alias], line)
    return line


def turn_prose(text, names):
    """tokens with a dash, bare or in a code span"""
    def one(m):
        word = m.group(0)
        if word in PROSE:
            return word
        return ".".join(names.get(p, p) if "-" in p and p not in PROSE else p for p in word.split("."))
    return re.sub(r"[\w'?≢≡]+(?:[-.][\w'?≢≡]+)+", one, text)


def turn_spans(text, names):
    def span(m):
        return "`" + turn_prose(m.group(1), names) + "`"
    return re.sub(r"(?<!`)`([^`\n]+)`(?!`)", span, text)


def turn_file(f, names, fields, declared, troubles):
    text = open(f).read()
    rust = f.endswith(".rt")
    proof = f.endswith("/Proof.antt")
    env = imports(text)
    here = names
    if rust:
        # a clause cites what the file imports, and fields; Rust has no name with a dash
        here = {o: n for o, n in names.items() if "-" in o or o in env[1]}
    lines = text.split("\n")
    used = [bool(USE.match(x)) for x in lines]
    body = "\n".join("\0" if u else x for u, x in zip(used, lines))
    out, state = "", {"before": ""}
    for kind, part in cut(body, rust):
        if kind == "comment":
            part = turn_prose(part, {o: n for o, n in names.items() if o in declared or o in here and o in body} if not proof else
                {o: n for o, n in names.items() if o in env[1]})
        elif kind == "code":
            part = turn_code(part, here, fields, env, proof, state)
        out += part
    turned = out.split("\n")
    for i, u in enumerate(used):
        if u:
            turned[i] = turn_use(lines[i], here)
    new = "\n".join(turned)
    together(f, text, new, rust, troubles)
    return new


def new_code(text):
    """Rust's code, without clauses and imports"""
    code = "".join(p for k, p in cut(text, True) if k == "code")
    return re.sub(r"(?m)^\s*(requires|ensures|invariant|ghost|use|decreases|pub use)\b.*$", "", code)


def together(f, text, new, rust, troubles):
    """troubles: two names of a file that are one name now"""
    seen = {}

    def heads(t):
        out = []
        for kind, part in cut(t, rust):
            if kind == "code":
                out += [c for c in CHAIN.findall(part)]
        return out
    a, b = heads(text), heads(new)
    # a function of Rust may be called like the word that it keeps to; what Rust binds may not
    bound = set(re.findall(r"(?<!fn )(?<![\w.:])(\w+)\b(?!\s*[(<]|-)", new_code(text))) if rust else set()
    assert len(a) == len(b), f
    for x, y in zip(a, b):
        if x.startswith("."):
            continue
        if rust and x == y and x not in bound:
            continue
        x, y = x.split(".")[0], y.split(".")[0]
        if seen.setdefault(y, x) != x and not y in APART:
            troubles.add((f, seen[y], x, y))


def main():
    names, kinds = the_map()
    fields = {n for n, k in kinds.items() if k & {"field"}}
    declared = {n for n, k in kinds.items() if k - {"local"}}
    troubles, writes = set(), {}
    back = {}
    for n in sorted(declared):
        back.setdefault(names.get(n, n), []).append(n)
    for new, olds in back.items():
        if len(olds) > 1 and new not in APART:
            troubles.add(("declared", ", ".join(olds), "", new))
    files = spec_files() + sorted(glob.glob("crates/*/proofs/**/Proof.antt", recursive=True))
    files += sorted(glob.glob("crates/*/src/**/*.rt", recursive=True))
    for f in files:
        writes[f] = turn_file(f, names, fields, declared, troubles)
    public = {o: n for o, n in names.items() if o in declared}
    for f in sorted(glob.glob("crates/*/must-fail/*.edit")) + ["tools/wrong_definitions.py"]:
        writes[f] = turn_prose(open(f).read(), public)
    for f in sorted(glob.glob("*.md") + glob.glob("docs/**/*.md", recursive=True) + glob.glob("*/README.md")):
        writes[f] = turn_spans(open(f).read(), public)
    if len(sys.argv) > 1:
        with open(sys.argv[1], "w") as t:
            t.writelines(f"{o}\t{n}\n" for o, n in sorted(names.items()))
    count = lambda *ks: sum(1 for o in names if kinds.get(o, {"variable"}) & set(ks))
    print(f"{len(names)} names: " + ", ".join(f"{k} {count(k)}" for k in ("word", "type", "field", "constructor", "lemma", "local", "variable")))
    if troubles:
        for t in sorted(troubles):
            print("together:", *t)
        sys.exit(1)
    changed = 0
    for f, text in writes.items():
        if open(f).read() != text:
            open(f, "w").write(text)
            changed += 1
    print(changed, "files")


if __name__ == "__main__":
    main()
