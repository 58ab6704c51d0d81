"""Whether tools/show shows proofs in all their forms in text: briefly, shared, and in signs of the blackboard."""

from certificates.calculus import premises
from certificates.formulas import spelled, subformulas
from certificates.judge import verdict
from certificates.texts import read
from checks.running import run
from checks.show import data_of, names_of_certificates
from showing import sharing

PIGEONS = "five-pigeons-in-four-holes"
PIGEON_LINES, MOST_LINES = 820, 1500
LOEB = """accepted: a proof of □(□p → p) → □p in GL, 5 steps
Each line has the rule, the principal with its kind, and behind => what is new; two premises stand farther in.
A world that is gone to is set apart by |, and begins with its whole set.
world 0: F □(□p → p) → □p
1. one α F □(□p → p) → □p => T □(□p → p), F □p
2. step π F □p => world 1
| world 1: F p, T □p, T □(□p → p), T □p → p
| 3. two β T □p → p => F □p | T p
|   4. close ν T □p with F □p
|   5. close T p with F p
"""
LOEB_SHARED = """accepted: a proof of box(box p -> p) -> box p in GL, 5 steps
The steps close 5 sets, each once below; a line cites those of its premises.
line  cites  rule   principal                     closed set
1     -      close  ν T box p                     F p, T box p, T box(box p -> p), T box p -> p, F box p
2     -      close  T p                           F p, T box p, T box(box p -> p), T box p -> p, T p
3     1 2    two    β T box p -> p                F p, T box p, T box(box p -> p), T box p -> p
4     3      step   π F box p                     F box(box p -> p) -> box p, T box(box p -> p), F box p
5     4      one    α F box(box p -> p) -> box p  F box(box p -> p) -> box p
"""
REJECTED = "breaks its rule: T box p isn't in the set"


def halves(one, other):
    """A proof of `one & other`, which are implications of a formula by itself."""
    goal = ("&", one, other)
    parts = [[("one", ("F", a)), ("close", ("T", a[1]))] for a in (one, other)]
    return goal, [("two", ("F", goal))] + parts[0] + parts[1]


def doubled(times):
    """A proof of p -> p doubled by & so often."""
    goal = spelled(b"p -> p")
    steps = [("one", ("F", goal)), ("close", ("T", goal[1]))]
    for _ in range(times):
        goal = ("&", goal, goal)
        steps = [("two", ("F", goal))] + steps + steps
    return goal, steps


def counts(logic, goal, steps):
    return [len(steps), len(sharing.shared(logic, goal, steps)[0].lines)]


def check_counts(report):
    """As many steps and sets as LANGUAGE has them of the function `shared`, for the same formulas."""
    same, other = spelled(b"p -> p"), spelled(b"q -> q")
    for what, wanted, proof in (("halves", [5, 3], halves(same, same)), ("other halves", [5, 5], halves(same, other)), ("doublings", [3071, 12], doubled(10))):
        report.compare("shared: %s" % what, wanted, counts("k", *proof))


def proofs():
    """The accepted proofs among the certificates: name, logic, formula and steps."""
    for name in names_of_certificates():
        data = data_of(name)
        if verdict(data)[0] == "accepted" and isinstance(read(data)[2], list):
            yield (name,) + read(data)


def cites_its_premises(logic, cuts, lines, number):
    """Whether the line cites earlier lines, whose sets are the premises of its step."""
    line = lines[number - 1]
    cited = [frozenset(lines[other - 1].formulas) for other in line.cites if other < number]
    return cited == premises(logic, cuts, frozenset(line.formulas), line.rule, line.principal)


def check_tables(report):
    """Each set stands once, its line cites the lines of its premises, and the last is the goal's."""
    for name, logic, goal, steps in proofs():
        lines = sharing.shared(logic, goal, steps)[0].lines
        cuts, sets = subformulas(goal), {frozenset(line.formulas) for line in lines}
        good = len(sets) == len(lines) and lines[-1].formulas == [("F", goal)]
        report.check("table of %s" % name, good and all(cites_its_premises(logic, cuts, lines, n) for n in range(1, len(lines) + 1)))


def check_texts(report):
    loeb = "examples/check/loeb-in-gl.txt"
    report.compare("show --unicode", LOEB, run("tools/show", loeb, "--unicode")[0])
    report.compare("show --shared", LOEB_SHARED, run("tools/show", loeb, "--shared")[0])
    written = run("tools/show", "examples/check/%s.txt" % PIGEONS)[0]
    report.compare("lines of %s" % PIGEONS, PIGEON_LINES, data_of(PIGEONS).count(b"\n"))
    report.check("brief %s" % PIGEONS, written.count("\n") <= MOST_LINES, "%d lines" % written.count("\n"))
    for form in ("--brief", "--full", "--shared", "--tree"):
        written, status = run("tools/show", "examples/check/loeb-in-k.txt", form)
        report.check("show %s of a rejected proof" % form, status == 1 and "4. close" in written and told_why(form) in written, written)


def told_why(form):
    return REJECTED.replace("box p", "□p") if form == "--tree" else REJECTED


def check_all(report):
    check_counts(report)
    check_tables(report)
    check_texts(report)
