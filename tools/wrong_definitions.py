#!/usr/bin/env python3
"""Shows that the laws refuse wrong definitions.

  tools/wrong_definitions.py [LABEL ..]

`rt must-fail` tries an edit on one crate, and the definition is in another crate than its laws. This applies an edit of
crates/model/must-fail to a copy of the repository, leaves out the cases that the definition is tried on, and proves the crates
that have the laws. (The wrong masks are no edits there, since no case of crate model shows them: NO_CASE has them.) Some lemmas
only restate a definition, as its cases: they follow the edit (RESTATED), so that what is refused is a claim. It prints the
claim that no longer holds and the first error; it fails where that is not the claim named here. It takes a minute or so for
each edit.
"""
import os
import re
import shutil
import subprocess
import sys
import tempfile

HERE = os.path.dirname(os.path.abspath(__file__))
ROOT = os.path.join(HERE, "..")
CASES = ("Table", "WrongTurns", "Steps")
LAWS = ["lawbase", "book", "assign", "learning", "watching", "mask", "ends", "sound", "script", "laws"]

# the mask asks for the bit of the literal's level, and of the next variable's
TWO_LEVELS = "bit_and (bit_and (abstract_level (level_lit vs l)) (abstract_level (level_lit vs (Rattle.std.specs.Prelude.◌+◌ l 2)))) mask"

# an edit of the definition, and the claim that refuses it: crate, module, declaration
CLAIMS = {
    "second_literal_of_the_level": ("learning", "Walk", "turn"),
    "blocker_of_another_sign": ("watching", "Attach", "attach_watched"),
    "level_1_dropped": ("learning", "Join", "join_law"),
    "true_with_a_variable_unset": ("assign", "Decide", "nil_outcome"),
    "not_ok_under_assumptions": ("sound", "Solve", "verdict_ready"),
    "watch_not_moved": ("watching", "Lists", "go_watched"),
    "decision_traced_through": ("learning", "Trace", "push_law"),
    "mask_tested_by_two_levels": ("mask", "OwnMask", "own_passes"),
    "mask_one_literal_short": ("mask", "Bits", "levels_in"),
}

# wrong definitions that are no edit of crates/model/must-fail: file, old text, new text
NO_CASE = {
    "mask_tested_by_two_levels": ("model/specs/Minimise.antt", "bit_and (abstract_level (level_lit vs l)) mask", TWO_LEVELS),
    "mask_one_literal_short": ("model/specs/Minimise.antt", "abstract_levels vs 0 ls", "abstract_levels vs 0 (Rattle.std.specs.Prelude.drop 1 ls)"),
}

# the lemmas that restate the definition's cases, and what is read off them: file, old text (wherever it stands), new text
RESTATED = {
    "second_literal_of_the_level": [
        ("learning/proofs/Turn.antt", "r.path ≤ 1\n    → resolve st vs", "r.path ≤ 2\n    → resolve st vs"),
        ("learning/proofs/Turn.antt", "1 < r.path\n    → resolve st vs", "2 < r.path\n    → resolve st vs"),
        ("learning/proofs/Turn.antt", "le-leb r.path 1 c", "le-leb r.path 2 c"),
        ("learning/proofs/Turn.antt", "lt-leb r.path 1 c", "lt-leb r.path 2 c"),
        ("learning/proofs/Walk.antt", "≡ true → 1 < r.path → Stop", "≡ true → 2 < r.path → Stop"),
        ("learning/proofs/Walk.antt", "v m l more deep in", "v m l (omega arith) deep in"),
        ("learning/proofs/Walk.antt", "v m l more) (new n", "v m l (omega arith)) (new n"),
        ("learning/proofs/Walk.antt", "split (less? 1 r.path)", "split (less? 2 r.path)"),
    ],
    "blocker_of_another_sign": [
        ("watching/proofs/Attach.antt", "record { clause = cr; blocker = c1 }", "record { clause = cr; blocker = neg c1 }"),
        ("watching/specs/Attach.antt", "record { clause = cr; blocker = c1 }", "record { clause = cr; blocker = neg c1 }"),
        ("watching/proofs/Attach.antt", "watches_new cs c (get_or c 1 0)", "watches_new cs c (neg (get_or c 1 0))"),
    ],
    "level_1_dropped": [
        ("learning/proofs/Join.antt", "→ ((0 < level_lit vs q → is_seen", "→ ((1 < level_lit vs q → is_seen"),
        ("learning/proofs/Join.antt", "≡ false → 0 < level_lit vs q → level_lit vs q ≡ decision_level vs → P", "≡ false → 1 < level_lit vs q → level_lit vs q ≡ decision_level vs → P"),
        ("learning/proofs/Join.antt", "≡ false → 0 < level_lit vs q → level_lit vs q ≢ decision_level vs → P", "≡ false → 1 < level_lit vs q → level_lit vs q ≢ decision_level vs → P"),
        ("learning/proofs/Join.antt", "split (less? 0 (level_lit vs q))", "split (less? 1 (level_lit vs q))"),
        ("learning/proofs/Join.antt", "lt-ltb 0 (level_lit vs q)", "lt-ltb 1 (level_lit vs q)"),
        ("learning/proofs/Join.antt", "le-ltb 0 (level_lit vs q)", "le-ltb 1 (level_lit vs q)"),
        ("learning/proofs/Join.antt", "(grew_same vs q r h)", "(grew_same vs q r (λ z. h (omega arith)))"),
    ],
    "true_with_a_variable_unset": [
        ("assign/proofs/Decide.antt", "≡ some p → P (decided (open_level s p))) → P (assume act [] s)", "≡ some p → P (complete s)) → P (assume act [] s)"),
        ("assign/proofs/Decide.antt", "(λ p f. open_decided p (branch_some r.formed act p f) (λ b. absurd (omega arith)))", "(λ p f. record { searching = r; store = refl; values = refl; trail = refl; all = branch_none r.formed act f; assumed = λ q i. let k = index 0 i in subst (λ q. q ∈ s.vars.trail) k.value (r.assumed.true_at k.at k.inside (omega (arith, k.inside)).on); qhead = refl })"),
    ],
    "not_ok_under_assumptions": [
        ("ends/proofs/Answer.antt", "failed_idle {cfg} w (l ∷ ls) = back_ready w cfg.phase", "failed_idle {cfg} {s} w (l ∷ ls) = closed (cancel_ok cfg.phase (with_ok s false) 0)"),
        ("ends/proofs/Spends.antt", "(FALSE (l ∷ ls)) w = credit_cancel w", "(FALSE (l ∷ ls)) w = credit_cancel (ok_formed w false)"),
        ("sound/proofs/Solve.antt", "still_ok (FALSE final) s ≡ s", "still_ok (FALSE final) s ≡ with_ok s false"),
        ("sound/proofs/Solve.antt", "(sym (some_ok final s h.some)) (solving_ready k))", "(sym (some_ok final s h.some)) (back_ready (ok_formed k.watching.formed false) (bad_sound k.sound h.follows) (λ e. absurd (true≢false (sym e)))))"),
        ("sound/proofs/Solve.antt", "use Rattle.model.specs.State.{", "use Rattle.model.specs.State.{with_ok, "),
    ],
    "watch_not_moved": [
        ("watching/specs/Look.antt", "(push_watch s.store.watches (neg (get_or r j 0)) (", "(push_watch s.store.watches p ("),
        ("watching/proofs/Look.antt", "(push_watch s.store.watches (neg (get_or c k 0)) (", "(push_watch s.store.watches p ("),
        ("watching/proofs/Visit.antt", "(push_watch s.store.watches (neg (get_or (rest_of k) j 0)) (", "(push_watch s.store.watches p ("),
        ("watching/proofs/Lists.antt", "push_watch ws (neg l) (", "push_watch ws p ("),
        ("watching/proofs/Lists.antt", "push-length ws (neg l) (", "push-length ws p ("),
        ("watching/proofs/Lists.antt", "push_every ws (neg l) (blocked_by w a) (OldOrOwn (get_or lists_now k []) w.clause (a ∷ l ∷ q)) k hl", "push_every ws p (blocked_by w a) (OldOrOwn (get_or lists_now k []) w.clause (a ∷ l ∷ q)) k hp"),
        ("watching/proofs/Lists.antt", "times-push_else ws (neg l) (blocked_by w a) c k hl", "times-push_else ws p (blocked_by w a) c k hp"),
        ("watching/proofs/Lists.antt", "bit_other k (neg (neg p)) (λ e. z (e ∙ neg-neg p)),", "bit_other k (neg (neg p)) (λ e. z (e ∙ neg-neg p)), bit_other k p z,"),
        ("watching/proofs/Lists.antt", "times-push ws (neg l) (blocked_by w a) w.clause k hl", "times-push ws p (blocked_by w a) w.clause k hp"),
    ],
    "decision_traced_through": [
        ("learning/proofs/Trace.antt", "≡ false → reason_lit vs l ≢ no_reason → P", "≡ false → reason_lit vs l ≢ l → P"),
        ("learning/proofs/Trace.antt", "(reason_lit vs l) no_reason", "(reason_lit vs l) l"),
    ],
    "mask_tested_by_two_levels": [
        ("learning/proofs/Trace.antt", "bit_and (abstract_level (level_lit vs l)) mask", TWO_LEVELS),
        ("mask/proofs/Bits.antt", "bit_and (abstract_level (level_lit vs l)) mask", TWO_LEVELS),
    ],
    "mask_one_literal_short": [
        ("learning/proofs/Minimise.antt", "abstract_levels vs 0 ls", "abstract_levels vs 0 (Rattle.std.specs.Prelude.drop 1 ls)"),
        ("mask/proofs/Bits.antt", "(abstract_level level) (abstract_levels vs mask ls)", "(abstract_level level) (abstract_levels vs mask (Rattle.std.specs.Prelude.drop 1 ls))"),
        ("mask/proofs/OwnMask.antt", "abstract_levels vs 0 ls", "abstract_levels vs 0 (Rattle.std.specs.Prelude.drop 1 ls)"),
        ("mask/proofs/OwnLevels.antt", "abstract_levels vs 0 clause", "abstract_levels vs 0 (Rattle.std.specs.Prelude.drop 1 clause)"),
        ("mask/proofs/Learnt.antt", "abstract_levels vs 0 ls", "abstract_levels vs 0 (drop 1 ls)"),
    ],
}


def replace(name, old, new, once):
    text = open(name, encoding="utf-8").read()
    if text.count(old) < 1 or (once and text.count(old) != 1):
        sys.exit("%s: the old text stands %d times: %s" % (name, text.count(old), old))
    open(name, "w", encoding="utf-8").write(text.replace(old, new))


def apply(crates, label):
    if label in NO_CASE:
        name, old, new = NO_CASE[label]
        replace(os.path.join(crates, name), old, new, True)
    else:
        apply_edit(crates, label)
    for name, old, new in RESTATED.get(label, []):
        replace(os.path.join(crates, name), old, new, False)


def apply_edit(crates, label):
    name = old = None
    for line in open(os.path.join(crates, "model", "must-fail", label + ".edit"), encoding="utf-8"):
        line = line.rstrip("\n")
        if line.startswith("file: "):
            name = os.path.join(crates, "model", line[6:])
        elif line.startswith("old: "):
            old = line[5:]
        elif line.startswith("new: "):
            replace(name, old, line[5:], True)


def leave_out(specs, modules):
    lib = os.path.join(specs, "Lib.antt")
    lines = [l for l in open(lib, encoding="utf-8") if not l.split()[-1:] or l.split()[-1] not in modules]
    open(lib, "w", encoding="utf-8").write("".join(lines))
    for module in modules:
        os.remove(os.path.join(specs, module + ".antt"))


def try_edit(label):
    with tempfile.TemporaryDirectory() as folder:
        crates = os.path.join(folder, "crates")
        shutil.copytree(os.path.join(ROOT, "crates"), crates, ignore=shutil.ignore_patterns("out"))
        shutil.copy(os.path.join(ROOT, "crates.txt"), folder)
        apply(crates, label)
        leave_out(os.path.join(crates, "model", "specs"), CASES)
        # the book's examples compute with the definition too
        leave_out(os.path.join(crates, "book", "specs"), ("Examples",))
        # from the bottom on: the first crate that no longer holds has the claim
        for crate in LAWS:
            run = subprocess.run(["rt", "check"], cwd=os.path.join(crates, crate), capture_output=True, text=True)
            if run.returncode:
                break
        # of the claims that no longer hold, the one that is named for it, else the first
        said = list(re.finditer(r"(?:specs|proofs)/(\w+)\.antt:\d+:\d+: error: `([^`]*)`: ([^\n]*(?:\n  [^\n]*)*)", run.stdout + run.stderr))
        first = next((e for e in said if (crate,) + e.group(1, 2) == CLAIMS[label]), said[0] if said else None)
        if run.returncode == 0 or not first:
            print("%s: NOT REFUSED" % label)
            return False
        as_claimed = (crate,) + first.group(1, 2) == CLAIMS[label]
        print("%s: refused by %s of module %s, crate %s%s" % (label, first.group(2), first.group(1), crate, "" if as_claimed else ": NOT THE CLAIM"))
        for line in first.group(3).split("\n"):
            print("    " + line.strip()[:300], flush=True)
        return as_claimed


def main(labels):
    results = [try_edit(label) for label in labels or CLAIMS]
    sys.exit(not all(results))


if __name__ == "__main__":
    main(sys.argv[1:])
