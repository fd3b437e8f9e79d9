#!/usr/bin/env python3
"""A reading of document 01 in plain Python: which scripts are turned back, and the run.

Reads one script a line on stdin, decimal cells separated by blanks, and prints its out cells,
or `refused NUMBER PLACE`. A line may begin with the lengths of work, activities and out and a
bar: `WORK ACTIVITIES OUT | cells`; without them every slice is long enough. `{N: cells}` stands
for the cells N times over. Blank lines and lines that begin with # are skipped. With --total the
sums of conflicts, restarts and rescales go to stderr.

It shares no code with the Rust or with the proved definition, so that equal answers mean something.
Python's float is the IEEE double, each operation rounded once, as rule 7 asks.
"""
import re
import sys

TRUE, FALSE, UNDEF = 0, 1, 2  # a solve's answers; the first two are also a variable's values
BUDGET, STORAGE = 1, 2        # causes
NO_REASON = -1


# ---- Turned back, by place

def judge(script, work=None, activities=None, out=None):
    """The refusal's number and place, or None where the script is accepted."""
    n = len(script)
    if n == 0:  # a run of no records, which writes nothing
        return None
    if n < 6:
        return 1, n
    V, C, L, mode, phase, unit = script[:6]
    if not 1 <= V <= 4096:
        return 2, 0
    if C > 65535:
        return 3, 1
    if L > 1048576:
        return 3, 2
    if mode > 2:
        return 4, 3
    if phase > 2:
        return 4, 4
    if not 1 <= unit <= 1000:
        return 4, 5
    need = 32 * V + 8 * C + L + 64
    if work is not None and work < need:
        return 5, need
    if activities is not None and activities < V:
        return 6, V
    clauses = solves = 0
    at = 6
    while at < n:
        kind = script[at]
        if kind not in (1, 2):
            return 7, at
        if at + 1 == n:
            return 8, n
        count = script[at + 1]
        if count > (min(211, 2 * V) if kind == 1 else 2 * V):
            return 10, at + 1
        end = at + 2 + count + (kind == 2)
        if end > n:
            return 8, n
        for i in range(at + 2, at + 2 + count):
            if script[i] >= 2 * V:
                return 9, i
        if kind == 1:
            clauses += 1
        else:
            if script[end - 1] > 1000000:
                return 11, end - 1
            solves += 1
        at = end
    need = clauses + solves * (V + 4)
    if out is not None and out < need:
        return 12, min(need, 4294967295)
    return None


# ---- The run

def luby(i):
    """Term i of 1 1 2 1 1 2 4 ..., from the recursive definition of the sequence."""
    n = i + 1
    k = n.bit_length()
    if n == (1 << k) - 1:
        return 1 << (k - 1)
    return luby(n - (1 << (k - 1)))


class NoStorage(Exception):
    """A learnt clause finds no room: cause 2."""


class Run:
    """The state between records, and one method a rule."""

    def __init__(self, V, C, L, mode, phase, unit):
        self.V, self.C, self.L = V, C, L
        self.mode, self.phase, self.unit = mode, phase, unit
        self.ok = True
        self.value = [UNDEF] * (2 * V)       # by literal
        self.level = [0] * V
        self.reason = [NO_REASON] * V        # a clause's number
        self.saved = [1] * V                 # the sign a decision takes; at first negative
        self.trail, self.limits, self.head = [], [], 0
        self.clauses, self.literals = [], 0
        self.watchers = [[] for _ in range(2 * V)]  # by the literal whose truth wakes them
        self.activity = [0.0] * V
        self.increment = 1.0
        self.marked = [False] * V
        self.conflicts = self.restarts = self.rescales = 0

    # -- trail

    def enqueue(self, lit, reason):
        self.value[lit], self.value[lit ^ 1] = TRUE, FALSE
        self.level[lit >> 1] = len(self.limits)
        self.reason[lit >> 1] = reason
        self.trail.append(lit)

    def open_level(self):
        self.limits.append(len(self.trail))

    def go_back(self, level):
        """Rule 5, the phases: phase 2 saves all, phase 1 only above the last limit."""
        if len(self.limits) <= level:
            return
        last, keep = self.limits[-1], self.limits[level]
        for place in range(len(self.trail) - 1, keep - 1, -1):
            lit = self.trail[place]
            self.value[lit] = self.value[lit ^ 1] = UNDEF
            if self.phase == 2 or (self.phase == 1 and place > last):
                self.saved[lit >> 1] = lit & 1
        del self.trail[keep:]
        del self.limits[level:]
        self.head = keep

    # -- store

    def has_room(self, size):
        return len(self.clauses) < self.C and self.literals + size <= self.L

    def store(self, lits):
        number = len(self.clauses)
        self.clauses.append(lits)
        self.literals += len(lits)
        self.watchers[lits[0] ^ 1].append((number, lits[1]))
        self.watchers[lits[1] ^ 1].append((number, lits[0]))
        return number

    # -- rule 1

    def take_clause(self, script_lits):
        if not self.ok:
            return 0
        lits = set(script_lits)
        # between records the run stands at level 0, so every set literal is set there
        if any(self.value[l] == TRUE or l ^ 1 in lits for l in lits):
            return 1
        kept = sorted(l for l in lits if self.value[l] != FALSE)
        if not kept:
            self.ok = False
            return 0
        if len(kept) == 1:
            self.enqueue(kept[0], NO_REASON)
            return 1
        if not self.has_room(len(kept)):
            return 2
        self.store(kept)
        return 1

    # -- rule 2

    def propagate(self):
        """The number of a false clause, or None."""
        value, clauses, watchers, trail = self.value, self.clauses, self.watchers, self.trail
        false_clause = None
        while self.head < len(trail):
            p = trail[self.head]
            self.head += 1
            not_p = p ^ 1
            old, kept = watchers[p], []
            for i, watcher in enumerate(old):
                number, blocker = watcher
                if value[blocker] == TRUE:
                    kept.append(watcher)
                    continue
                c = clauses[number]
                if c[0] == not_p:
                    c[0], c[1] = c[1], not_p
                first = c[0]
                watcher = (number, first)
                if value[first] != TRUE:
                    for k in range(2, len(c)):
                        if value[c[k]] != FALSE:
                            c[1], c[k] = c[k], not_p
                            watchers[c[1] ^ 1].append(watcher)
                            break
                    else:
                        kept.append(watcher)
                        if value[first] == FALSE:
                            false_clause = number
                            self.head = len(trail)
                            kept.extend(old[i + 1:])
                            break
                        self.enqueue(first, number)
                    continue
                kept.append(watcher)
            watchers[p] = kept
        return false_clause

    # -- rule 7

    def bump(self, var):
        self.activity[var] += self.increment
        if self.activity[var] > 1e100:
            self.activity = [a * 1e-100 for a in self.activity]
            self.increment *= 1e-100
            self.rescales += 1

    def decay(self):
        self.increment *= 1.0 / 0.95

    # -- rules 3 and 4

    def analyze(self, number):
        """The learnt clause: the first UIP's negation first, then one of the highest level."""
        level, marked = self.level, self.marked
        here = len(self.limits)
        rest, open_here, place = [], 0, len(self.trail)
        met = []
        lits = self.clauses[number]
        while True:
            for q in lits:
                v = q >> 1
                if not marked[v] and level[v] > 0:
                    marked[v] = True
                    met.append(v)
                    self.bump(v)
                    if level[v] == here:
                        open_here += 1
                    else:
                        rest.append(q)
            place -= 1
            while not marked[self.trail[place] >> 1]:
                place -= 1
            uip = self.trail[place]
            open_here -= 1
            if open_here == 0:
                break
            lits = self.clauses[self.reason[uip >> 1]][1:]
        for v in met:
            marked[v] = False
        rest = self.minimise(rest)
        if rest:
            at = max(range(len(rest)), key=lambda i: level[rest[i] >> 1])  # the earliest on a tie
            rest[0], rest[at] = rest[at], rest[0]
        return [uip ^ 1] + rest

    def minimise(self, rest):
        if self.mode != 2:
            return rest
        mask = 0
        for l in rest:
            mask |= 1 << (self.level[l >> 1] & 31)
        implied = {l >> 1 for l in rest}  # the clause's variables and what was found to rest on them
        return [l for l in rest
                if self.reason[l >> 1] == NO_REASON or not self.redundant(l, mask, implied)]

    def redundant(self, lit, mask, implied):
        new, stack = set(), [lit]
        while stack:
            for l in self.clauses[self.reason[stack.pop() >> 1]][1:]:
                v = l >> 1
                if self.level[v] == 0 or v in implied or v in new:
                    continue
                if self.reason[v] == NO_REASON or not (1 << (self.level[v] & 31)) & mask:
                    return False
                new.add(v)
                stack.append(l)
        implied |= new
        return True

    # -- rule 6

    def analyze_final(self, false_assumption):
        """The negation of the assumption found false, then the negated decisions it rests on."""
        final = [false_assumption ^ 1]
        if not self.limits:
            return final
        rests_on = {false_assumption >> 1}
        for lit in reversed(self.trail[self.limits[0]:]):
            v = lit >> 1
            if v not in rests_on:
                continue
            if self.reason[v] == NO_REASON:
                if lit ^ 1 not in final:
                    final.append(lit ^ 1)
            else:
                for l in self.clauses[self.reason[v]][1:]:
                    if self.level[l >> 1] > 0:
                        rests_on.add(l >> 1)
        return final

    def pick(self):
        best = None
        for v in range(self.V):
            if self.value[2 * v] == UNDEF and (best is None or self.activity[v] > self.activity[best]):
                best = v
        return best

    # -- rules 5 and 8

    def learn(self, lits):
        if len(lits) > 1 and not self.has_room(len(lits)):
            raise NoStorage
        self.go_back(self.level[lits[1] >> 1] if len(lits) > 1 else 0)
        self.enqueue(lits[0], self.store(lits) if len(lits) > 1 else NO_REASON)
        self.decay()

    def search(self, assumptions, most, limit):
        """An answer with its cells, or None at a restart or a spent budget."""
        here = 0
        while True:
            number = self.propagate()
            if number is not None:
                self.conflicts += 1
                here += 1
                if not self.limits:
                    return FALSE, []
                self.learn(self.analyze(number))
                continue
            if here >= most or self.conflicts >= limit:
                self.go_back(0)
                return None
            decision = None
            while len(self.limits) < len(assumptions):
                a = assumptions[len(self.limits)]
                if self.value[a] == FALSE:
                    return FALSE, self.analyze_final(a)
                if self.value[a] == UNDEF:
                    decision = a
                    break
                self.open_level()
            if decision is None:
                v = self.pick()
                if v is None:
                    return TRUE, [self.value[2 * v] for v in range(self.V)]
                decision = 2 * v + self.saved[v]
            self.open_level()
            self.enqueue(decision, NO_REASON)

    def solve(self, assumptions, budget):
        """The out cells of a solve."""
        if not self.ok:
            return [FALSE, 0, 0]
        before, searches = self.conflicts, 0
        try:
            while True:
                ended = self.search(assumptions, self.unit * luby(searches), before + budget)
                if ended is None and self.conflicts < before + budget:
                    searches += 1
                    self.restarts += 1
                    continue
                answer, cells = ended or (UNDEF, [BUDGET])
                break
        except NoStorage:
            answer, cells = UNDEF, [STORAGE]
        if answer == FALSE and not cells:
            self.ok = False
        self.go_back(0)  # rule 9
        return [answer, self.conflicts - before, len(cells)] + cells


def run(script):
    """The out cells of an accepted script, and the state at the end (None where it has no cells)."""
    if not script:
        return [], None
    state = Run(*script[:6])
    out = []
    at = 6
    while at < len(script):
        count = script[at + 1]
        lits = script[at + 2:at + 2 + count]
        if script[at] == 1:
            out.append(state.take_clause(lits))
            at += 2 + count
        else:
            out += state.solve(lits, script[at + 2 + count])
            at += 3 + count
    return out, state


# ---- lines

def cells(text):
    """Decimal cells; `{N: cells}` repeats."""
    result = []
    for part in re.split(r"(\{[^}]*\})", text):
        if part.startswith("{"):
            times, _, inner = part[1:-1].partition(":")
            result += [int(c) for c in inner.split()] * int(times)
        else:
            result += [int(c) for c in part.split()]
    return result


def answer(line):
    """What a line of input gives, and the state of its run (None for a refusal)."""
    lengths, bar, text = line.rpartition("|")
    script = cells(text)
    refusal = judge(script, *([int(n) for n in lengths.split()] if bar else []))
    if refusal:
        return "refused %d %d" % refusal, None
    out, state = run(script)
    return " ".join(map(str, out)), state


def main():
    scripts = conflicts = restarts = rescales = 0
    for line in sys.stdin:
        line = line.strip()
        if not line or line.startswith("#"):
            continue
        text, state = answer(line)
        print(text, flush=True)
        scripts += 1
        if state:
            conflicts += state.conflicts
            restarts += state.restarts
            rescales += state.rescales
    if "--total" in sys.argv:
        print("scripts=%d conflicts=%d restarts=%d rescales=%d" % (scripts, conflicts, restarts, rescales),
              file=sys.stderr)


if __name__ == "__main__":
    main()
