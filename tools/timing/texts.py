"""The texts that tools/bench gives the program: scripts, certificates and cases, each made for a size."""


def balanced(leaves, sign):
    """A formula of these leaves under one connective, as a balanced tree with all its brackets."""
    while len(leaves) > 1:
        pairs = [leaves[i : i + 2] for i in range(0, len(leaves), 2)]
        leaves = ["(" + sign.join(pair) + ")" if len(pair) == 2 else pair[0] for pair in pairs]
    return leaves[0]


def operators(size):
    return balanced(["p"] * (size // 6), " & ")


def brackets(size):
    return balanced(["(" * 100 + "p" + ")" * 100] * (size // 206), " v ")


def names(size):
    return balanced(["a" * 60 + "%04d" % (i % 5000) for i in range(size // 71)], " -> ")


def comments(size):
    return "# a line of a comment\n" * (size // 22) + "p"


def statements(size):
    return "X := p;\n" * (size // 8)


def numbers(size):
    return "L := [" + "1, " * (size // 3) + "1];"


def sums(size):
    return ("X := " + "1 + " * 400 + "1;\n") * (size // 1608)


def nested(size):
    return ("X := " + "(" * 400 + "p" + ")" * 400 + ";\n") * (size // 808)


def certificate(logic, formula, kind, body):
    """The text of a certificate."""
    return "\n".join(["certificate 1", "logic " + logic, "formula " + formula, kind] + body + ["end", ""])


def wide_proof(lines):
    """A proof of so many lines whose sets stay small: a balanced tree of cuts on one formula."""
    def below(count):
        if count < 3:
            return ["close T box p"]
        half = (count - 1) // 2
        half -= 1 - half % 2
        return ["cut T box p"] + below(half) + below(count - 1 - half)

    return certificate("s5", "box p -> box p", "proof", ["one F box p -> box p"] + below(lines - 1))


def tall_proof(lines):
    """A proof of so many lines `one` above one another, whose sets grow: a balanced conjunction of different letters."""
    steps = []

    def below(letters):
        if len(letters) == 1:
            return letters[0]
        at = len(steps)
        steps.append("")
        half = len(letters) // 2
        left, right = below(letters[:half]), below(letters[half:])
        whole = ("(" + left + ")" if half > 1 else left) + " & " + right
        steps[at] = "one T " + whole
        return whole

    goal = below(["p%d" % i for i in range(lines)]) + " -> p0"
    return certificate("k", goal, "proof", ["one F " + goal] + steps + ["close T p0"])


def boxed_steps(count):
    """A proof in GL of box^n p -> box^n (p v q) by so many steps, of which each keeps every ν and its component."""
    def boxed(level):
        return boxes(level - 1, "box(p v q)") if level else "p v q"

    goal = boxes(count, "p") + " -> " + boxed(count)
    steps = ["step F " + boxed(level) for level in range(count, 0, -1)]
    return certificate("gl", goal, "proof", ["one F " + goal] + steps + ["one F " + boxed(0), "close T p"])


def chain(worlds):
    """A model of a chain whose relation is transitive, which refutes a formula at its first world."""
    rows = ["worlds %d" % worlds, "refuted 0"]
    for world in range(worlds):
        seen = "".join(" %d" % other for other in range(world + 1, worlds))
        rows.append("world %d sees%s true" % (world, seen))
    return certificate("gl", "box p", "model", rows)


def complete(worlds):
    """A model of worlds of which each sees each, which refutes a formula at its first world."""
    rows = ["worlds %d" % worlds, "refuted 0"]
    every = "".join(" %d" % other for other in range(worlds))
    return certificate("s5", "box p", "model", rows + ["world %d sees%s true" % (world, every) for world in range(worlds)])


def smallest_case(worlds, pairs, facts):
    """What lw_cases reads for the smallest model of this one, and for its facts."""
    words = " ".join(["%d" % worlds] + pairs + facts)
    return "smallest %s\n" % words, "facts %s\n" % words


def chain_case(worlds):
    """A transitive chain with a fact at its last world."""
    pairs = ["%d>%d" % (world, other) for world in range(worlds) for other in range(world + 1, worlds)]
    return smallest_case(worlds, pairs, ["%d:p" % (worlds - 1)])


def complete_case(worlds):
    """Worlds of which each sees each."""
    return smallest_case(worlds, ["%d>%d" % (world, other) for world in range(worlds) for other in range(worlds)], [])


def shared_case(lines):
    """A proof of so many lines, or of up to two fewer, which close as many different sets, all small: a balanced conjunction of
    tautologies. What lw_cases reads for its table and the verdicts on it, and for its lines and its depth."""
    leaves = ["p%d -> p%d" % (leaf, leaf) for leaf in range((lines + 1) // 3)]

    def below(first, count):
        if count == 1:
            return leaves[first], ["one F " + leaves[first], "close T p%d" % first]
        (left, lefts), (right, rights) = below(first, count // 2), below(first + count // 2, count - count // 2)
        whole = "(%s) & %s" % (left, right if count > 2 else "(%s)" % right)
        return whole, ["two F " + whole] + lefts + rights

    formula, steps = below(0, len(leaves))
    text = "text " + certificate("k", formula, "proof", steps).replace("\n", "\\n") + "\n"
    return text + "table\n", text + "proof\n"


def facts(count):
    """A model of one world at which so many variables are true, and not the one that it refutes."""
    names = "".join(" " + name for name in sorted("p%d" % i for i in range(count)))
    return certificate("k", "p", "model", ["worlds 1", "refuted 0", "world 0 sees true" + names])


def conjunction(count):
    """Of so many variables, which implies one of them."""
    return "(%s) -> p%d" % (" & ".join("p%d" % i for i in range(count)), count // 2)


def boxes(count, inner):
    return "box " * count + inner


def branching(depth, valid):
    """Halpern and Moses' formula (A guide to completeness and complexity for modal logics of knowledge and belief): it
    holds only where a tree of worlds branches so many times. Its negation isn't valid; it is where a branch is closed."""
    parts = ["q0 & ~q1"]
    for level in range(depth):
        low, high, top = "q%d" % level, "q%d" % (level + 1), "q%d" % (level + 2)
        rules = ["(%s & ~%s -> dia(%s & ~%s & p%d) & dia(%s & ~%s & ~p%d))" % (low, high, high, top, level + 1, high, top, level + 1)]
        for p in ("p%d" % i for i in range(1, level + 1)):
            rules.append("(%s -> box(%s -> %s)) & (~%s -> box(%s -> ~%s))" % (p, low, p, p, low, p))
        parts.append(boxes(level, "(" + " & ".join(rules) + ")"))
    if valid:
        parts.append(boxes(depth, "false"))
    return "~((" + ") & (".join(parts) + "))"


def goedel(a):
    """The translation of an intuitionistic formula: a letter, or a tuple of `~`, `->`, `v` or `&` and its operands."""
    if isinstance(a, str):
        return "box " + a
    if a[0] == "~":
        return "box ~" + goedel(a[1])
    text = "(%s %s %s)" % (goedel(a[1]), a[0], goedel(a[2]))
    return "box" + text if a[0] == "->" else text


def implications(letters, count):
    """((p -> q) -> r) -> .., with so many letters in turn."""
    a = letters[0]
    for i in range(1, count):
        a = ("->", a, letters[i % len(letters)])
    return a


def turns(count):
    return "X := 0; for I := 1 to %d do X := I; end\n" % count


def negations(count):
    return "A := p; for I := 1 to %d do A := ~A; end\n" % count


def prints(count):
    return ("print " + " & ".join(letter * 4 for letter in "abcdefghijklmn") + ";\n") * count


def appended(count):
    return "L := []; for I := 1 to %d do L := append(L, I); end\n" % count


def items(count):
    """Each item of a list that the script's text has."""
    return "L := [" + "1, " * (count - 1) + "1];\nS := 0; for I := 1 to %d do S := S + item(L, I); end\n" % count


def variables(count):
    """A loop that reads and sets the last of so many variables."""
    return "".join("X%d := %d;\n" % (i, i) for i in range(count)) + "for I := 1 to 200000 do X%d := X%d; end\n" % (
        count - 1, count - 1)


def reads(certificate):
    """A loop that reads a variable with a certificate of a long proof, or with a number."""
    first = "C := 1; "
    if certificate:
        long = " & ".join("(p%d -> p%d)" % (i, i) for i in range(30))
        first = "A := %s; C := certificate(k, A -> A); " % long
    return first + "for I := 1 to 300000 do D := C; end\n"


def interpolants(logic):
    def make(boxes):
        words = "box " * boxes
        return "for I := 1 to 200 do X := interpolate(%s, %sp & q, %s(p v r)); end\n" % (logic, words, words)

    make.__name__ = "interpolants in " + logic
    return make


def of_formula(function, loop, name):
    """A function of a formula that a loop builds from p."""
    def make(count):
        return "A := p; for I := 1 to %d do A := %s; end X := %s(A);\n" % (count, loop, function)

    make.__name__ = function + ", " + name
    return make


def fixed_points(boxes):
    return "B := box p; A := B; for I := 2 to %d do B := box B; A := A & B; end X := fixpoint(p, A);\n" % boxes


def doubled_fixed_point(count):
    return "A := box p; for I := 1 to %d do A := A & A; end X := fixpoint(p, A);\n" % count


def traces(boxes):
    """The trace and the normal form of box^n false, over and over."""
    return "A := false; for I := 1 to %d do A := box A; end for I := 1 to 1000 do X := trace(A); Y := letterless(A); end\n" % boxes


def smallest_chains(worlds):
    """The smallest model of a transitive chain of so many worlds, as GL's countermodel of box^n false, over and over."""
    return ("A := false; for I := 1 to %d do A := box A; end C := certificate(gl, A); "
            "for I := 1 to 50 do D := smallest(C); end\n" % (worlds - 1))


def smallest_clusters(letters):
    """The smallest model of worlds that see each other in S5, over and over."""
    asked = " & ".join("dia p%d" % i for i in range(letters))
    return "C := certificate(s5, ~(%s & dia q)); for I := 1 to 200 do D := smallest(C); end\n" % asked
