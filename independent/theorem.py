"""Writes the computed theorem that holds the definitions against this program.

`python3 independent/theorem.py` prints an antt module: systems of every kind of outcome, each with the whole answer that
document01.py gives it. `python3 independent/theorem.py --check` compares it with the module that the crate holds.
"""

import random
import sys
from pathlib import Path

import document01
import generate

MODULE = Path(__file__).resolve().parent.parent / "crates/rules/proofs/Compared.antt"
SEED = 1
MOST_VARIABLES = 6
# how many systems of each kind of outcome
QUOTAS = {
    "open": 14,
    "equation conflict": 10,
    "one-row conflict": 4,
    "two-row conflict": 6,
    "refusal 3": 3,
    "refusal 4": 8,
    "refusal 5": 5,
}
KINDS = (
    generate.small,
    generate.dense,
    generate.solvable,
    generate.dependent_rows,
    generate.near_limit,
    generate.edge_of_limit,
    generate.divisors,
    generate.many_steps,
    generate.parities,
    generate.too_large_entry,
    generate.too_large_run,
    generate.too_large_inequality,
)
CONSTRUCTORS = {
    "open": "Open",
    "equation conflict": "EquationConflict",
    "one-row conflict": "OneRowConflict",
    "two-row conflict": "TwoRowConflict",
}
REFUSALS = {3: "BadEntry", 4: "TooLarge", 5: "LargeSum"}
TABLES = ("Equations", "Inequalities", "Multipliers")
W = document01.W
# what the project's reading of the document rests on, so that it is held fast too
READINGS = (
    (3, 3, 0, [1, 0, 0, 0, 0, 1, 2, 0, 0, W, -W, 0], []),
    (2, 2, 0, [1, 2, 0, W, W, 0], []),
    (2, 1, 1, [1, -2, 0], [W, -W, 0]),
    (2, 3, 0, [65536, 0, 0, 0, 59049, 0, 1, 2187, 0], []),
    (2, 3, 0, [0, -3, 0, 9, 512, 0, 991657, 0, 0], []),
    (2, 2, 0, [16384, 0, 0, 1, 32768, 16384], []),
    (2, 2, 0, [-2, 89934462, 0, 3, 0, 1], []),
    (3, 2, 0, [-19683, -8, 0, -3, -1, -4, -2, 3], []),
    (2, 2, 0, [3, 5, -7, 2, 0, -1], []),
    (2, 2, 1, [2, 1, 0, 1, 0, 0], [W, -W, 0]),
)
# small systems on which an easy mistake shows: flooring in (c), the highest column on a tie, lowest terms left out in (d)
TELLING = (
    (2, 1, 0, [3, -2, 0], []),
    (2, 1, 0, [1, 1, 0], []),
    (2, 2, 0, [0, -4, 4, -1, -2, 1], []),
    (1, 2, 0, [3, 0, 3, -1], []),
)
HEAD = """-- Systems of every kind of outcome, with the answers of the independent program: made by `python3 independent/theorem.py`.
use mathlib.Core.Path.{◌≡◌, refl}
use mathlib.Core.List.{List, [], ◌∷◌, map}
use Rattle.rules.specs.declared.Table.TheVariants.{Equations, Inequalities}
use Rattle.rules.specs.declared.Refusal.TheVariants.{BadEntry, TooLarge, LargeSum}
use Rattle.rules.specs.declared.Outcome.TheVariants.{Open, EquationConflict, OneRowConflict, TwoRowConflict}
use Rattle.rules.proofs.Case.{Case, p, m, answered, filled, unmet, refused}

"""
TAIL = """
pub compared : map answered systems ≡ map (λ c. c.expected) systems
unfolding answered
compared = refl
"""


def listed(texts):
    """An antt list."""
    return "(" + " ∷ ".join(texts) + " ∷ [])" if texts else "[]"


def whole(numbers):
    """A table of whole numbers: p 5 is 5 and m 5 is -5."""
    return listed([f"p {z}" if z >= 0 else f"m {-z}" for z in numbers])


def natural(numbers):
    """A table of numbers that are not negative."""
    return listed([str(z) for z in numbers])


def constructed(outcome):
    """The outcome's constructor with its values."""
    kind, *values = outcome
    if kind == "refusal":
        kind, *values = values
        name = REFUSALS[kind]
        if name == "BadEntry":
            values = [TABLES[values[0]], *values[1:]]
    else:
        name = CONSTRUCTORS[kind]
    return "(" + " ".join([name] + [str(value) for value in values]) + ")"


def case(system):
    """One element of the list: the system and its whole answer."""
    n, m, k, equations, inequalities = system
    outcome, tables = document01.solve(*system, document01.fresh(n, m, k, 7))
    head = f"{n} {m} {k} {whole(equations)} {whole(inequalities)} {constructed(outcome)}"
    if outcome[0] == "refusal":
        return f"refused {head}"
    if outcome[0] == "equation conflict":
        return f"unmet {head} {whole(tables['conflict'])}"
    parts = [whole(tables["substitution"]), natural(tables["marks"]), whole(tables["way_back"]), whole(tables["reasons"])]
    return " ".join([f"filled {head}"] + parts + [whole(tables["tightened"]), natural(tables["used"])])


def kind_of(system):
    """The kind of the system's outcome, refusals told apart by their number."""
    n, m, k = system[:3]
    outcome = document01.solve(*system, document01.fresh(n, m, k))[0]
    return f"refusal {outcome[1]}" if outcome[0] == "refusal" else outcome[0]


def chosen():
    """Systems until each kind of outcome has as many as it should."""
    rng = random.Random(SEED)
    left = dict(QUOTAS)
    while any(left.values()):
        for generator in KINDS:
            for system in generator(rng, 1):
                kind = kind_of(system)
                if system[0] <= MOST_VARIABLES and len(system[4]) <= 28 and left.get(kind, 0):
                    left[kind] -= 1
                    yield system


def module():
    """The text of the antt module."""
    elements = [f"({case(system)})" for system in [*READINGS, *TELLING, *chosen()]]
    return HEAD + "abbrev pub systems : List Case\nsystems =\n    " + "\n    ∷ ".join(elements + ["[]"]) + "\n" + TAIL


if __name__ == "__main__":
    if "--check" in sys.argv:
        same = MODULE.read_text(encoding="utf-8").split() == module().split()
        print("the computed theorem is the independent program's" if same else "the computed theorem is another than the program's")
        sys.exit(not same)
    print(module(), end="")
