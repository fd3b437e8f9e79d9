#!/usr/bin/env python3
"""Makes and checks the files of vectors/, and states the small ones over the definition.

  tools/vectors.py ORACLE             write vectors/*.txt; ORACLE is the program of docs/oracle/build
  tools/vectors.py --check [ORACLE]   see that vectors/*.txt and crates/replay are what is made here, and run tools/reading.py,
                                      and ORACLE if given, over them
  tools/vectors.py --random N SEED ORACLE
                                      compare ORACLE and tools/reading.py on N random scripts
  tools/vectors.py --antt DIR         write DIR/specs/*.antt, but for Cases.antt, and DIR/src/lib.rt from vectors/*.txt
  tools/vectors.py --replay           write crates/replay/stdin and stdout from vectors/*.txt

Cells in oracle.txt come from the oracle. Those in storage.txt and refusals.txt, of which the oracle
knows nothing, stand in tools/cases.py beside their sentence of document 01. Nothing is written where
tools/reading.py reads document 01 differently.
"""
import itertools
import os
import random
import subprocess
import sys

sys.dont_write_bytecode = True  # nothing beside the sources

import cases
import reading

HERE = os.path.dirname(os.path.abspath(__file__))
VECTORS = os.path.join(HERE, "..", "vectors")
REPLAY = os.path.join(HERE, "..", "crates", "replay")
SEED = 809
UNITS = (1, 2, 5, 100)


# ---- scripts

def clause(lits):
    return [1, len(lits)] + list(lits)


def solve(budget, assumptions=()):
    return [2, len(assumptions)] + list(assumptions) + [budget]


def script(V, records, mode=2, phase=2, unit=100, C=65535, L=1048576):
    return [V, C, L, mode, phase, unit] + [cell for record in records for cell in record]


def distinct(rng, V, size):
    """Literals of different variables."""
    return [2 * v + rng.randrange(2) for v in rng.sample(range(V), size)]


def any_lits(rng, V, size):
    """Literals that may repeat and contradict."""
    return [rng.randrange(2 * V) for _ in range(size)]


def three_sat(rng, V, ratio):
    return [clause(distinct(rng, V, 3)) for _ in range(round(V * ratio))]


def pigeons(n, holes):
    """n pigeons, each in a hole, no two in one."""
    lit = lambda pigeon, hole: 2 * (pigeon * holes + hole)
    each = [clause([lit(p, h) for h in range(holes)]) for p in range(n)]
    apart = [clause([lit(p, h) + 1, lit(q, h) + 1])
             for h in range(holes) for p, q in itertools.combinations(range(n), 2)]
    return each + apart


def renamed(rng, V, clauses):
    """The same clauses in another order, over variables with other numbers."""
    names = list(range(V))
    rng.shuffle(names)
    result = [clause([2 * names[l >> 1] + (l & 1) for l in c[2:]]) for c in clauses]
    rng.shuffle(result)
    return result


def random_solve(rng, V, budgets):
    kind = rng.random()
    if kind < 0.45:
        assumptions = []
    elif kind < 0.75:
        assumptions = distinct(rng, V, rng.randint(1, min(V, 4)))
    elif kind < 0.9:
        assumptions = any_lits(rng, V, rng.randint(1, min(2 * V, 6)))
    elif kind < 0.95:
        assumptions = any_lits(rng, V, 2 * V)
    else:
        assumptions = [rng.randrange(2 * V)] * rng.randint(1, 2 * V)
    return solve(rng.choice(budgets), assumptions)


SMALL_BUDGETS = (0, 1, 1, 2, 3, 5, 10, 1000, 1000000)
BUDGETS = (1, 2, 3, 10, 50, 1000)


def random_options(rng):
    return dict(mode=rng.randrange(3), phase=rng.randrange(3), unit=rng.choice((1, 1, 2, 5, 100)))


def tiny(rng):
    """Up to 4 variables, clauses of any form, solves in between."""
    V = rng.randint(1, 4)
    records = []
    for _ in range(rng.randint(1, 12)):
        if rng.random() < 0.65:
            size = rng.choice((0, 1, 2, 2, 2, 3, 3, 3, 4, 5))
            if rng.random() < 0.3:
                records.append(clause(any_lits(rng, V, min(size, 2 * V))))
            else:
                records.append(clause(distinct(rng, V, max(1, min(size, V)))))
        else:
            records.append(random_solve(rng, V, SMALL_BUDGETS))
    return script(V, records + [random_solve(rng, V, SMALL_BUDGETS)], **random_options(rng))


def small(rng):
    """4 to 14 variables, clauses of 2 to 4 literals, solves in between."""
    V = rng.randint(4, 14)
    count = round(V * rng.uniform(2.5, 5.0))
    records = []
    for _ in range(count):
        size = rng.choice((2, 3, 3, 3, 3, 4))
        odd = rng.random()
        if odd < 0.03:
            records.append(clause(any_lits(rng, V, size)))
        else:
            records.append(clause(distinct(rng, V, 1 if odd < 0.05 else size)))
        if rng.random() < 3.0 / count:
            records.append(random_solve(rng, V, SMALL_BUDGETS))
    records += [random_solve(rng, V, SMALL_BUDGETS) for _ in range(rng.randint(1, 4))]
    return script(V, records, **random_options(rng))


def middling(rng, low=12, high=30):
    """3-SAT near its threshold, with a few solves."""
    V = rng.randint(low, high)
    records = three_sat(rng, V, rng.uniform(3.8, 4.8))
    for _ in range(rng.randint(0, 2)):
        records.insert(rng.randrange(len(records) // 2, len(records)), random_solve(rng, V, BUDGETS))
    records += [random_solve(rng, V, BUDGETS) for _ in range(rng.randint(1, 3))]
    return script(V, records, **random_options(rng))


def random_script(rng):
    kind = rng.random()
    return tiny(rng) if kind < 0.45 else small(rng) if kind < 0.85 else middling(rng)


# ---- the groups of oracle.txt: a title, then cases (name, why, script)

def told(entries):
    return [(name, why, reading.cells(text)) for name, why, text in entries]


def one_variable():
    kinds = ([], [0], [1], [0, 1])
    for length in range(3):
        for i, chosen in enumerate(itertools.product(kinds, repeat=length)):
            for budget in (0, 10):
                records = [clause(c) for c in chosen] + [solve(budget), solve(budget, [0]), solve(budget, [1])]
                yield "one-variable-%d-%d-%d" % (length, i, budget), "", script(1, records, phase=i % 3, C=8, L=64)


def two_variables():
    kinds = [[0], [1], [2], [3], [0, 2], [0, 3], [1, 2], [1, 3]]
    number = 0
    for size in range(4):
        for chosen in itertools.combinations(kinds, size):
            records = [clause(c) for c in chosen] + [solve(9), solve(9, [0, 2]), solve(9)]
            yield ("two-variables-%d" % number, "",
                   script(2, records, mode=number % 3, phase=number // 3 % 3, unit=UNITS[number % 4], C=64, L=512))
            number += 1


def four_binaries():
    binaries = [[0, 2], [0, 3], [1, 2], [1, 3]]
    for number, order in enumerate(itertools.permutations(binaries)):
        yield ("four-binaries-%d" % number, "",
               script(2, [clause(c) for c in order] + [solve(number % 3), solve(9)], mode=number % 3, C=64, L=512))


def assumption_lists():
    for length in range(3):
        for i, assumptions in enumerate(itertools.product(range(4), repeat=length)):
            for name, clauses in (("free", []), ("bound", [[0, 2], [1, 2]])):
                records = [clause(c) for c in clauses] + [solve(9, assumptions), solve(9)]
                yield ("assumptions-%s-%d-%d" % (name, length, i), "",
                       script(2, records, phase=i % 3, C=64, L=512))


def full_assumptions(rng):
    for number in range(12):
        V = rng.randint(1, 4)
        records = [clause(distinct(rng, V, min(V, 2))) for _ in range(rng.randint(0, 3))]
        lits = list(range(2 * V))
        rng.shuffle(lits)
        assumptions = (lits, any_lits(rng, V, 2 * V), [lits[0]] * (2 * V), sorted(lits[:V]) * 2)[number % 4]
        yield ("full-assumptions-%d" % number, "",
               script(V, records + [solve(9, assumptions), solve(9)], phase=number % 3, C=64, L=512))


def grid(rng):
    records = three_sat(rng, 30, 4.4)
    for mode, phase, unit in itertools.product(range(3), range(3), UNITS):
        yield ("grid-%d-%d-%d" % (mode, phase, unit), "",
               script(30, records + [solve(7, [0, 3]), solve(1000)], mode, phase, unit))


def budgets(rng):
    for number in range(4):
        V = 16 + 4 * number
        records = three_sat(rng, V, 4.5)
        for budget in (0, 1, 2, 3, 5, 10, 100, 1000000):
            yield ("budget-%d-%d" % (V, budget), "",
                   script(V, records + [solve(budget), solve(budget), solve(budget, [1])],
                          number % 3, 2 - number % 3, 2))


def restarts(rng):
    """Small ones that restart often: kept are those with four restarts or more."""
    number = 0
    while number < 14:
        V = rng.randint(7, 12)
        records = three_sat(rng, V, rng.uniform(4.5, 5.5))
        assumptions = distinct(rng, V, 1) if number % 2 else []
        cells = script(V, records + [solve(100, assumptions), solve(100)], number % 3, number // 3 % 3, 1 + number // 9)
        if reading.run(cells)[1].restarts >= 4:
            yield "restarts-%d" % number, "", cells
            number += 1


def threshold(rng):
    for number in range(48):
        V = rng.randint(8, 40)
        records = three_sat(rng, V, rng.uniform(4.0, 4.8))
        lasts = [solve(10000)] if number % 2 else [solve(10000, distinct(rng, V, 2)), solve(10000)]
        yield "threshold-%d" % number, "", script(V, records + lasts, **random_options(rng))


def harder(rng):
    for number in range(6):
        V = 70 + 10 * number
        yield ("harder-%d" % V, "",
               script(V, three_sat(rng, V, 4.3) + [solve(1000000)], number % 3, 2 - number // 2, UNITS[number % 4]))


def holes():
    for n in (2, 3, 4, 5, 6):
        for mode in range(3):
            yield ("pigeons-%d-mode-%d" % (n, mode), "",
                   script(n * (n - 1), pigeons(n, n - 1) + [solve(1000000)], mode, mode, 5))
    yield "pigeons-with-room", "", script(12, pigeons(3, 4) + [solve(100), solve(100, [0, 2, 4])])


def long_runs(rng):
    why = "over 4,491 analysed conflicts, so activities are rescaled"
    yield "long-pigeons-mode-2", why, script(72, pigeons(9, 8) + [solve(5000), solve(500)], 2, 2, 100)
    yield "long-pigeons-mode-0", why, script(72, pigeons(9, 8) + [solve(5200)], 0, 1, 1)
    for number in (9, 20):  # a last bit of an activity shows in these
        clauses = renamed(random.Random("%d pigeons %d" % (SEED, number)), 72, pigeons(9, 8))
        yield ("long-pigeons-renamed-%d" % number, why,
               script(72, clauses + [solve(9000)], number % 3, number // 3 % 3, UNITS[number % 4]))
    yield "long-random-mode-1", why, script(200, three_sat(rng, 200, 4.3) + [solve(4800), solve(400)], 1, 0, 10)
    yield "long-random-mode-2", why, script(200, three_sat(rng, 200, 4.3) + [solve(5600)], 2, 2, 3)


def most_variables():
    ends = [[1, 8190], [8191, 4096], [4097, 8188]]
    yield "most-variables-no-clause", "V = 4096", script(4096, [solve(1)])
    yield ("most-variables-chain", "V = 4096, 0 implies 8190 implies 4096 implies 8188",
           script(4096, [clause(c) for c in ends] + [solve(9, [0])], phase=1))
    yield ("most-variables-final", "V = 4096, and 8189 is assumed last",
           script(4096, [clause(c) for c in ends] + [solve(9, [6000, 0, 8189]), solve(0)]))
    yield ("most-levels", "V = 4096 with 8192 assumptions, so 8192 levels before the last is false",
           script(4096, [solve(9, [8190] * 8191 + [8191])]))
    yield ("most-variables-conflict", "V = 4096, units learnt about the last variable until none is left",
           script(4096, [clause(c) for c in ([8190, 8188], [8190, 8189], [8191, 8186], [8191, 8187])]
                  + [solve(9, [0, 2]), solve(9)]))


def random_group(rng, name, make, count):
    return [("%s-%d" % (name, i), "", make(rng)) for i in range(count)]


def groups():
    # a generator for each group, so that a change to one leaves the others as they are
    rng = lambda group: random.Random("%d %s" % (SEED, group))
    return [
        ("intake: rule 1", told(cases.INTAKE)),
        ("search: rules 2, 3, 5, 6, 7, 8", told(cases.SEARCH)),
        ("minimise: rule 4", told(cases.MINIMISE)),
        ("phases: rule 5", told(cases.PHASES)),
        ("finals: rule 6's analyze_final", told(cases.FINALS)),
        ("one variable: every list of up to two clauses; solves with no assumption, 0 and 1", one_variable()),
        ("two variables: every set of up to three of the eight units and binaries", two_variables()),
        ("the four binaries over two variables, in every order", four_binaries()),
        ("every list of up to two assumptions over two variables", assumption_lists()),
        ("2 × V assumptions", full_assumptions(rng("full assumptions"))),
        ("tiny: random, clauses of any form", random_group(rng("tiny"), "tiny", tiny, 70)),
        ("small: random, solves between clauses", random_group(rng("small"), "small", small, 70)),
        ("grid: one 3-SAT instance, every mode, phase and four units", grid(rng("grid"))),
        ("budgets: 0 to 1,000,000, spent in turn", budgets(rng("budgets"))),
        ("restarts: random 3-SAT, 7 to 12 variables, four restarts or more", restarts(rng("restarts"))),
        ("threshold: random 3-SAT, 8 to 40 variables", threshold(rng("threshold"))),
        ("harder: random 3-SAT, 70 to 120 variables", harder(rng("harder"))),
        ("pigeons: one hole too few", holes()),
        ("the largest V", most_variables()),
        ("long runs", long_runs(rng("long runs"))),
    ]


# ---- running

def line(cells):
    return " ".join(map(str, cells))


def run_oracle(program, scripts):
    """The out lines, and for each script its counts."""
    done = subprocess.run([program, "--each"], input="".join(line(s) + "\n" for s in scripts),
                          capture_output=True, text=True, check=True)
    outs = done.stdout.split("\n")[:-1]
    counts = [dict(word.split("=") for word in text.split()) for text in done.stderr.splitlines()]
    assert len(outs) == len(counts) == len(scripts)
    return outs, counts


def fail(text):
    sys.exit("tools/vectors.py: " + text)


# ---- the files

def oracle_text(program, compared=True):
    """The text of oracle.txt, by default only where the reading agrees with the oracle."""
    made = [(title, list(entries)) for title, entries in groups()]
    scripts = [s for _, entries in made for _, _, s in entries]
    names = [name for _, entries in made for name, _, _ in entries]
    if len(set(names)) != len(names):
        fail("a name is given twice")
    outs, counts = run_oracle(program, scripts)
    total = lambda key: sum(int(c[key]) for c in counts)
    text = [
        "# Scripts with the out cells that the oracle gives (docs/oracle).",
        "# A line: name | script cells | out cells. `# group` opens a group; other lines with # say why.",
        "# C and L are never short here, for the oracle has no limits.",
        "# Made by: tools/vectors.py ORACLE (seed %d). Not to be edited by hand." % SEED,
        "# %d scripts, %d conflicts, %d restarts, %d propagations."
        % (len(scripts), total("conflicts"), total("restarts"), total("propagations")),
    ]
    at = 0
    for title, entries in made:
        text += ["", "# group " + title]
        for name, why, cells in entries:
            if reading.judge(cells):
                fail("%s is refused" % name)
            if compared and line(reading.run(cells)[0]) != outs[at]:
                fail("%s: oracle and reading differ" % name)
            text += ["# " + why] if why else []
            text.append("%s | %s | %s" % (name, line(cells), outs[at]))
            at += 1
    return "\n".join(text) + "\n"


def told_text(head, rows):
    """The text of rows (name, sentence of document 01, why, cells, expected), each tried on the reading."""
    text, last = head + ["# Made by: tools/vectors.py from tools/cases.py. %d scripts." % len(rows)], None
    for name, sentence, why, cells, expected in rows:
        if reading.answer(cells)[0] != expected:
            fail("%s: document 01 is read differently" % name)
        text += ["", '# "%s"' % sentence] if sentence != last else []
        last = sentence
        text += ["# " + why] if why else []
        text.append(("%s | %s | %s" % (name, cells, expected)).rstrip())
    return "\n".join(text) + "\n"


def storage_text():
    return told_text([
        "# Scripts that are short of storage, or just not.",
        "# A line: name | script cells | out cells. Above each: why, and before that, for it and those that follow,",
        "# the sentence of document 01 they come from.",
    ], cases.STORAGE)


def refusals_text():
    return told_text([
        "# Scripts that are turned back, and those just inside the boundary.",
        "# A line: name | lengths of work, activities, out | script cells | refused NUMBER PLACE, or the out cells.",
        "# {N: cells} stands for the cells N times over. Above them: the row or sentence of document 01, or of 02 (Q-).",
    ], [(name, sentence, "", lengths + " | " + cells, expected) for name, sentence, lengths, cells, expected in cases.REFUSALS])


def path(name):
    return os.path.join(VECTORS, name + ".txt")


def read_file(name):
    """The lines of a file as lists of fields, each with its group and the comments above it."""
    group, comments = "", []
    for text in open(path(name), encoding="utf-8"):
        text = text.strip()
        if text.startswith("# group "):
            group, comments = text[len("# group "):], []
        elif text.startswith("#"):
            comments.append(text[1:].strip())
        elif text:
            yield group, comments, [field.strip() for field in text.split("|")]
            comments = []
        else:
            comments = []


def write(program):
    os.makedirs(VECTORS, exist_ok=True)
    for name, text in (("oracle", oracle_text(program)), ("storage", storage_text()), ("refusals", refusals_text())):
        with open(path(name), "w", encoding="utf-8") as file:
            file.write(text)


def check(program):
    wrong = 0
    entries = [fields for _, _, fields in read_file("oracle")]
    made = [(name, line(cells)) for _, group in groups() for name, _, cells in group]
    if made != [(name, cells) for name, cells, _ in entries]:
        wrong += 1
        print("the scripts of oracle.txt are not what the generator makes")
    for name, text in (("storage", storage_text()), ("refusals", refusals_text())):
        if open(path(name), encoding="utf-8").read() != text:
            wrong += 1
            print("%s.txt is not what the generator makes" % name)
    if program:
        if open(path("oracle"), encoding="utf-8").read() != oracle_text(program, False):
            wrong += 1
            print("oracle.txt is not what the generator makes")
        outs, _ = run_oracle(program, [reading.cells(cells) for _, cells, _ in entries])
        for (name, _, expected), out in zip(entries, outs):
            if out != expected:
                wrong += 1
                print("oracle.txt, oracle:", name)
    lines = [("oracle", name, cells, expected) for name, cells, expected in entries]
    lines += [("storage", *fields) for _, _, fields in read_file("storage")]
    lines += [("refusals", name, lengths + " | " + cells, expected)
              for _, _, (name, lengths, cells, expected) in read_file("refusals")]
    for name, text in zip(("stdin", "stdout"), replay_files()):
        if open(os.path.join(REPLAY, name), encoding="utf-8").read() != text:
            wrong += 1
            print("crates/replay/%s is not what the generator makes" % name)
    rescales = 0
    for file, name, text, expected in lines:
        got, state = reading.answer(text)
        rescales += state.rescales if state else 0
        if got != expected:
            wrong += 1
            print("%s.txt, reading: %s" % (file, name))
    print("%d lines, %d rescales, %d wrong" % (len(lines), rescales, wrong))
    sys.exit(wrong > 0)


def compare(count, seed, program):
    rng = random.Random(seed)
    scripts = [random_script(rng) for _ in range(count)]
    outs, counts = run_oracle(program, scripts)
    wrong = 0
    for cells, out in zip(scripts, outs):
        if reading.judge(cells) or line(reading.run(cells)[0]) != out:
            wrong += 1
            print("differs:", line(cells))
    print("%d scripts, %d conflicts, %d restarts, %d differ"
          % (count, sum(int(c["conflicts"]) for c in counts), sum(int(c["restarts"]) for c in counts), wrong))
    sys.exit(wrong > 0)


# ---- over the definition

HEAD = """-- %s
-- Made by tools/vectors.py --antt from vectors/%s.txt.
use Rattle.std.specs.Prelude.{◌≡◌, refl, List, [], ◌∷◌}
use Rattle.vectors.specs.Cases.{Case, %s, failing}
"""


def case(name, comments, kind, *fields):
    return "".join("    -- %s\n" % c for c in comments) + "    " + " ".join([kind] + ['"%s"' % f for f in (name, *fields)]) + " ∷"


def conflicts(cells, out):
    """How long the definition runs: the conflicts of a script's solves, and one for the script."""
    state = reading.run(reading.cells(cells))[1] if out else None
    return 1 + (state.conflicts if state else 0)


def theorems(cases):
    """Lists of cases, of which each is one computed test; a long list is cut, since the checker counts a declaration's steps."""
    parts, weight = [[]], 0
    for cost, text in cases:
        if parts[-1] and weight + cost > MOST_CONFLICTS:
            parts.append([])
            weight = 0
        parts[-1].append(text)
        weight += cost
    text = ""
    for number, part in enumerate(parts, 1):
        name = "cases" if len(parts) == 1 else "cases_%d" % number
        text += "\n%s : List Case\n%s =\n%s\n    []\n" % (name, name, "\n".join(part))
        text += "\nall_hold%s : failing %s ≡ []\nunfolding %s failing\nall_hold%s = refl\n" % (name[5:], name, name, name[5:])
    return text


# the module of a group of oracle.txt, and what it says
MODULES = {
    "Intake": ("intake", "Rule 1: what a clause answers and what it leaves."),
    "Search": ("search", "Rules 2, 3, 5 to 8: propagation, learning, decisions, budgets and restarts."),
    "Minimise": ("minimise", "Rule 4: what each mode keeps of a learnt clause."),
    "Phases": ("phases", "Rule 5: the signs that each phase saves."),
    "Finals": ("finals", "Rule 6: final clauses and assumptions."),
    "Restarts": ("restarts", "Rule 8: runs of four restarts or more, in every mode and phase."),
    "Mixed": ("small", "Random scripts with solves between clauses, in every mode and phase."),
}
MOST_CELLS = {"Mixed": 130}  # the definition is for reading, and slow to run


MOST_CONFLICTS = 60  # of one declaration


def antt(folder):
    specs, src = os.path.join(folder, "specs"), os.path.join(folder, "src")
    os.makedirs(specs, exist_ok=True)
    os.makedirs(src, exist_ok=True)
    modules = {}
    for module, (start, title) in MODULES.items():
        chosen = [(conflicts(cells, out), case(name, comments, "runs", cells, out))
                  for group, comments, (name, cells, out) in read_file("oracle")
                  if group.startswith(start) and len(reading.cells(cells)) <= MOST_CELLS.get(module, 400)]
        modules[module] = HEAD % (title, "oracle", "runs"), chosen
    chosen = [(conflicts(cells, out), case(name, comments[-1:], "runs", cells, out))
              for _, comments, (name, cells, out) in read_file("storage")]
    modules["Storage"] = HEAD % ("Answer 2, cause 2, and what is left behind them.", "storage", "runs"), chosen
    chosen = []
    for _, _, (name, lengths, cells, expected) in read_file("refusals"):
        if "{" not in cells:
            refusal = expected.startswith("refused")
            kind, wanted = ("refused", expected[len("refused "):]) if refusal else ("passes", expected)
            chosen.append((conflicts(cells, not refusal), case(name, [], kind, lengths, cells, wanted)))
    title = "Scripts with the lengths of work, activities and out: number and place of the refusal, or the cells."
    modules["Refusals"] = HEAD % (title, "refusals", "refused, passes"), chosen
    for module, (head, chosen) in modules.items():
        with open(os.path.join(specs, module + ".antt"), "w", encoding="utf-8") as file:
            file.write(head + theorems(chosen))
    with open(os.path.join(specs, "Lib.antt"), "w", encoding="utf-8") as file:
        file.write("".join("pub mod %s\n" % module for module in ["Cases", *modules]))
    with open(os.path.join(src, "lib.rt"), "w", encoding="utf-8") as file:
        file.write("// Scripts with their out cells, run by the definition.\n\n#![tactic(auto)]\n")
    print("%d cases" % sum(len(chosen) for _, chosen in modules.values()))


# ---- for the program crates/replay

MOST_REPLAYED = 16384 - 6  # the script and out cells that its slice has room for; bindings/ runs the refusals that are longer


def replay_lines(file):
    """The groups of a file, each with the lines of its scripts."""
    made = {}
    for group, _, (name, *lengths, script_cells, expected) in read_file(file):
        cells = reading.cells(script_cells)
        if lengths:
            lengths = lengths[0].split()
        else:  # what is asked for, and some cells behind it
            V, C, L = cells[:3]
            lengths = [32 * V + 8 * C + L + 64 + 16, V + 4, reading.judge(cells, out=-1)[1] + 8]
        refusal, out = (0, 0), []
        if expected.startswith("refused"):
            refusal = expected.split()[1:]
        else:
            out = reading.cells(expected)
        if len(cells) + len(out) <= MOST_REPLAYED:
            made.setdefault(group or file, []).append(line([name, *lengths, *refusal, len(cells), *cells, *out]))
    return made


def replay_files():
    """What crates/replay reads, and what it must write."""
    groups = [made for file in ("oracle", "storage", "refusals") for made in replay_lines(file).items()]
    text = "".join("group %s\n%s\n" % (title, "\n".join(lines)) for title, lines in groups)
    counts = [("group " + title, len(lines)) for title, lines in groups]
    counts.append(("all", sum(count for _, count in counts)))
    return text, "".join("%s: %d passed, 0 failed\n" % each for each in counts)


def replay():
    for name, text in zip(("stdin", "stdout"), replay_files()):
        with open(os.path.join(REPLAY, name), "w", encoding="utf-8") as file:
            file.write(text)


def main(words):
    if words[:1] == ["--check"] and len(words) <= 2:
        check(words[1] if len(words) == 2 else None)
    elif words[:1] == ["--random"] and len(words) == 4:
        compare(int(words[1]), int(words[2]), words[3])
    elif words[:1] == ["--antt"] and len(words) == 2:
        antt(words[1])
    elif words == ["--replay"]:
        replay()
    elif len(words) == 1 and not words[0].startswith("-"):
        write(words[0])
    else:
        sys.exit(__doc__)


if __name__ == "__main__":
    main(sys.argv[1:])
