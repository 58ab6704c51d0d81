"""The rows of tools/bench as data: what is measured for which sizes, and each row's bounds.

`ratio` bounds what one size takes by that of the size before, `most` what each takes alone, in milliseconds. A bound of time
alone isn't one of instructions.
"""

from timing import texts
from timing.jobs import Job

KIB = 1024
SIZES_OF_READING = (256 * KIB, 512 * KIB, 1024 * KIB - 16)
SIZES_OF_SCRIPTS = (512 * KIB, 1024 * KIB - 16)
LOGICS = ("k", "kt", "s4", "s5", "gl", "grz")


class Row:
    """A row: its section, its name, its sizes, the job of a size, and its bounds, of which one may be None. `of` is `time`,
    `cases` (the program of cases) or `memory`."""

    def __init__(self, section, name, sizes, job, ratio=None, most=None, of="time"):
        self.section, self.name, self.sizes, self.job = section, name, sizes, job
        self.ratio, self.most, self.of = ratio, most, of


def script(make, before="", behind=""):
    return lambda size: Job(["run"], before + make(size) + behind)


def checked(make):
    return lambda size: Job(["check"], make(size))


def case(make, without):
    """The case of a size; `without` takes off what reading it takes."""

    def job(size):
        whole, reading = make(size)
        return Job(cases=whole, less=Job(cases=reading) if without else None)

    return job


def question(logic, formula):
    return Job(["run"], "print provable(%s, %s);" % (logic, formula))


def asked(count):
    return Job(["run"], "A := box(box p -> p) -> box p; for I := 1 to %d do print provable(k, A); end" % count)


# the fault at the end is found when all else is read, so the time is that of reading, and what is read isn't run
READING = [Row("reading", make.__name__, SIZES_OF_READING, script(make, "print ", "\n)"), 2.3) for make in (
    texts.operators, texts.brackets, texts.names, texts.comments)]
SCRIPTS = [Row("reading scripts", make.__name__, SIZES_OF_SCRIPTS, script(make, "", "\n)"), 2.3) for make in (
    texts.statements, texts.numbers, texts.sums, texts.nested)]
CHECKING = [Row("checking", make.__name__, sizes, checked(make), ratio) for make, sizes, ratio in (
    (texts.wide_proof, (5000, 10000), 2.5),
    (texts.tall_proof, (2000, 4000), 4.5),
    (texts.boxed_steps, (30, 60), 10),
    (texts.chain, (350, 700), 4.5),
    (texts.complete, (250, 500), 4.5),
    (texts.facts, (60000, 120000), 2.5),
)]
RUNNING = [Row("running", make.__name__, sizes, script(make), ratio) for make, sizes, ratio in (
    (texts.turns, (249999, 499999), 2.3),
    (texts.negations, (249999, 499999), 2.3),
    (texts.prints, (2000, 4000), 2.3),
    (texts.appended, (10000, 20000), 4.5),
    (texts.items, (10000, 20000), 2.6),
    (texts.variables, (10, 1000), 1.5),
    (texts.reads, (False, True), 1.5),
    *((texts.interpolants(logic), (15, 30, 60), 10) for logic in ("k", "kt", "s4", "gl")),
    *((texts.of_formula(function, "A <-> p", "equivalences"), (50, 100), 2.5) for function in ("nnf", "simplify", "boxdot")),
    *((texts.of_formula(function, "box A", "boxes"), (100000, 200000), 2.3) for function in ("nnf", "simplify", "boxdot")),
    (texts.of_formula("goedel", "A -> q", "implications"), (100000, 200000), 2.3),
    (texts.fixed_points, (5, 6, 7, 8, 9, 10), 2.8),
    (texts.traces, (60, 120), 4.5),
    (texts.smallest_chains, (60, 120), 9),
    (texts.smallest_clusters, (20, 40), 4.5),
)]
# formulas that share their operands: whoever walks their trees never ends
SHARED = [Row("running", make.__name__, (size,), script(make), most=1000) for make, size in (
    *((texts.of_formula(function, "A & A", "doubled"), 60) for function in ("nnf", "simplify", "boxdot", "goedel")),
    (texts.doubled_fixed_point, 30),
)]
MEMORY = [Row("memory of one question and of 1,000, in KiB", "asked", (1, 1000), asked, 1.2, of="memory")]
CASES = [Row("cases", make.__name__, sizes, case(make, without), ratio, of="cases") for make, sizes, ratio, without in (
    (texts.chain_case, (350, 700), 9, True),
    (texts.complete_case, (250, 500), 4.5, False),
    (texts.shared_case, (5000, 10000), 2.6, False),
)]
COUNTING = [Row("counting", "gen", (50, 100), lambda number: Job(["gen", str(number)]), 14, 5000)]


def questions():
    """The greatest questions of `gen 100`: those of the number 100."""
    less, more = texts.boxes(100, "p"), texts.boxes(101, "p")
    word = "".join("dia " if digit == "1" else "box " for digit in "100100")
    back = "".join("dia " if digit == "1" else "box " for digit in "001001")
    return {
        "transitive 100": "%s -> %s" % (less, more),
        "reflexive 100": "%s -> %s" % (more, less),
        "loeb 100": "box(%s -> %s) -> %s" % (more, less, more),
        "coded 100": "%sp -> %sp" % (word, back),
    }


GEN = [
    Row("counting", "%s in %s" % (name, logic), ("",), lambda _, logic=logic, a=a: question(logic, a), most=500)
    for name, a in questions().items() for logic in LOGICS
]


def alone():
    """Formulas of K that are decided in under a second each."""
    yield "conjunction of 60", texts.conjunction(60)
    yield "p under 100 boxes", texts.boxes(100, "p")
    for depth in (1, 2, 3):
        yield "branching %d" % depth, texts.branching(depth, False)
        yield "branching %d, closed" % depth, texts.branching(depth, True)


def translations():
    """Formulas of S4 that come of intuitionistic ones."""
    peirce = ("->", ("->", ("->", "p", "q"), "p"), "p")
    yield "Peirce's law", texts.goedel(peirce)
    yield "Peirce's law, twice denied", texts.goedel(("~", ("~", peirce)))
    yield "weak excluded middle", texts.goedel(("v", ("~", "p"), ("~", ("~", "p"))))
    for letters in ("pq", "pqr"):
        for count in (6, 9, 12):
            yield "%d implications of %d letters" % (count - 1, len(letters)), texts.goedel(texts.implications(letters, count))


def itself(count):
    return question("k", texts.boxes(count, "p") + " -> " + texts.boxes(count, "p"))


DECIDING = (
    [Row("deciding", name, ("",), lambda _, a=a: question("k", a), most=1000) for name, a in alone()]
    + [Row("deciding", "box^n p implies itself", (30, 60), itself, 8, 1000)]
    + [Row("deciding", name, ("",), lambda _, a=a: question("s4", a), most=2000) for name, a in translations()]
)

ROWS = READING + SCRIPTS + CHECKING + RUNNING + SHARED + MEMORY + CASES + COUNTING + GEN + DECIDING
