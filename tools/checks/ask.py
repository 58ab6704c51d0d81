"""Whether `lw ask` asks what is meant, tells of what can't be read, and answers as its program does.

The launcher is tried in a folder of its own, with a shell script in place of the built program.
"""

import os
import tempfile

from asking.signs import OURS
from certificates.formulas import RESERVED
from certificates.texts import LOGICS
from checks.launcher import PROGRAM, SLOW, Folder, write
from checks.report import TOP, text_of
from checks.running import run

# a formula as it is written, and as the script has it
FORMULAS = [
    ("box p -> p", "box p -> p"),
    ("  (box(p))->((p))\t\n", "box p -> p"),
    ("□p→p", "box p -> p"),
    ("[]p-><>p", "box p -> dia p"),
    ("□(p → q) → □p → □q", "box(p -> q) -> box p -> box q"),
    ("¬◇¬p↔□p", "~dia ~p <-> box p"),
    ("p∧q∨⊤→⊥", "p & q v true -> false"),
    ("p<->q", "p <-> q"),
    ("<><>p<->[][]p", "dia dia p <-> box box p"),
    ("p∨v_1∨vv", "p v v_1 v vv"),
    ("boxp v diab", "boxp v diab"),
    ("~" * 400 + "p", "~" * 400 + "p"),
    ("a" * 64, "a" * 64),
]
# a text that is no formula's, and what is said of it
MISTAKES = [
    ("", "the formula is empty"),
    (" \n", "the formula is empty"),
    ("p &", "the formula, column 4: a formula is missing behind `&`"),
    ("□", "the formula, column 2: a formula is missing behind `box`"),
    ("& p", "the formula, column 1: a formula is missing, before `&`"),
    ("p &\n& q", "the formula, line 2 column 1: a formula is missing behind `&`, before `&`"),
    ("()", "the formula, column 2: a formula is missing behind `(`, before `)`"),
    ("□◇p q", "the formula, column 5: a connective is missing between `p` and `q`"),
    ("(p & (q)", "the formula, column 9: `)` is missing for the `(` at column 1"),
    ("p & q)", "the formula, column 6: this `)` closes nothing"),
    ("p | q", "the formula, column 3: `|` is written `v`"),
    ("p ∧ !q", "the formula, column 5: `!` is written `~`"),
    ("p /\\ q", "the formula, column 3: `/\\` is written `&`"),
    ("p \\/ q", "the formula, column 3: `\\/` is written `v`"),
    ("p => q", "the formula, column 3: `=>` is written `->`"),
    ("p && q", "the formula, column 3: `&&` is written `&`"),
    ("p <=> q", "the formula, column 3: `<=>` is written `<->`"),
    ("p = q", "the formula, column 3: that two formulas are equivalent is written `<->`"),
    ("p == q", "the formula, column 3: that two formulas are equivalent is written `<->`"),
    ("[p]", "the formula, column 1: the brackets of formulas are `(` and `)`"),
    ("p ⊃ q", "the formula, column 3: `⊃` can't stand in a formula"),
    ("p\udce9", "the formula, column 2: '\\udce9' can't stand in a formula"),
    ("p; print q", "the formula, column 2: `;` can't stand in a formula"),
    ("p # q", "the formula, column 3: `#` can't stand in a formula"),
    ("p, q", "the formula, column 2: `,` can't stand in a formula"),
    ("1", "the formula, column 1: a formula has no numbers"),
    ("P -> p", "the formula, column 1: a variable begins with a lower-case letter, and `P` doesn't"),
    ("end", "the formula, column 1: `end` is a reserved word and can't be a name"),
    ("p and q", "the formula, column 3: `and` is a reserved word and can't be a name"),
    ("nnf(p)", "the formula, column 1: `nnf` is a function of scripts, and `ask` takes a formula alone"),
    ("a" * 65, "the formula, column 1: a name has at most 64 bytes"),
    ("~" * 401 + "p", "the formula, column 401: more than 400 constructs are unfinished here"),
]
LINES = [
    (["K", "p"], "there is no logic `K`: did you mean `k`? the logics are %s" % ", ".join(LOGICS)),
    (["s4.2", "p"], "there is no logic `s4.2`: the logics are %s" % ", ".join(LOGICS)),
    (["k", "box", "p"], "the formula is one word, between quotes: lw ask k 'box p'"),
    (["k"], "the following arguments are required: FORMULA; tools/ask --help tells the words"),
    (["k", "p", "--more"], "unrecognized arguments: --more; tools/ask --help tells the words"),
]
ECHO = '#!/bin/sh\ncat "$2" >"$0.asked"\ncat "$0.written"\nexit $(cat "$0.status")\n'
PROOF, MODEL = "examples/check/loeb-in-gl.txt", "examples/check/dead-end-in-gl.txt"


def check_formulas(report):
    for text, wanted in FORMULAS:
        lines = "A := %s;\nprint provable(gl, A);\n" % wanted
        report.compare("ask %r" % text[:40], (lines, 0), run("tools/ask", "gl", text))
    for logic in LOGICS:
        report.compare("ask %s" % logic, ("A := p;\nprint provable(%s, A);\n" % logic, 0), run("tools/ask", logic, "p"))
    for option in (["--certificate"], ["--show"], ["--svg", "OUT"]):
        lines = "A := p;\nprint provable(k, A);\nprint certificate(k, A);\n"
        report.compare("ask %s" % option[0], (lines, 0), run("tools/ask", "k", "p", *option))


def check_signs(report):
    """Each sign of textbooks stands in a row above."""
    for sign in OURS:
        report.check("a formula with %s" % sign, any(sign in text for text, _ in FORMULAS))


def check_mistakes(report):
    for words, said in [(["k", text], said) for text, said in MISTAKES] + LINES:
        report.compare("ask %r" % words[-1][:40], ("ask: %s\n" % said, 2), run("tools/ask", *words))
    for word in sorted(RESERVED - set("true false box dia v".split())):
        told, status = run("tools/ask", "k", "p & " + word)
        report.check("ask k 'p & %s'" % word, status == 2 and "column 5: `%s` is a" % word in told, told)


class Asked:
    """A folder with the launcher, and with a program that writes what it is given to write."""

    def __init__(self, room, more):
        self.folder = Folder(room, more)
        self.folder.put_program(ECHO)
        self.folder.run("vouch")

    def run(self, written, status, *words, **more):
        program = os.path.join(self.folder.top, PROGRAM)
        write(program + ".written", written)
        write(program + ".status", str(status))
        return self.folder.run("ask", *words, **more)

    def question(self):
        with open(os.path.join(self.folder.top, PROGRAM + ".asked"), encoding="utf-8") as file:
            return file.read()


def check_answers(report, asked):
    """By the launcher: what is printed of what the program writes, and the status."""
    proof, model = text_of(PROOF), text_of(MODEL)
    report.compare("lw ask: yes", ("yes\n", "", 0), asked.run("yes\n", 0, "gl", "□(□p → p) → □p"))
    report.compare("lw ask: its question", "A := box(box p -> p) -> box p;\nprint provable(gl, A);\n", asked.question())
    report.compare("lw ask: no", ("no\n", "", 1), asked.run("no\n", 0, "k", "p"))
    report.compare("lw ask: -", ("no\n", "", 1), asked.run("no\n", 0, "k", "-", input="p →\r\nq\r\n"))
    report.compare("lw ask: its question of -", "A := p -> q;\nprint provable(k, A);\n", asked.question())
    report.compare("lw ask --certificate", ("no\n" + model, "", 1), asked.run("no\n" + model, 0, "k", "p", "--certificate"))
    shown = asked.run("yes\n" + proof, 0, "gl", "p", "--show")
    report.compare("lw ask --show of a proof", ("yes\n" + run("tools/show", PROOF)[0], "", 0), shown)
    shown = asked.run("no\n" + model, 0, "gl", "p", "--show", "--certificate")
    report.compare("lw ask --show --certificate of a model", ("no\n" + model + run("tools/show", MODEL)[0], "", 1), shown)


def check_pictures(report, asked):
    model, out = text_of(MODEL), os.path.join(asked.folder.top, "out.svg")
    report.compare("lw ask --svg", ("no\n", "", 1), asked.run("no\n" + model, 0, "gl", "p", "--svg", out))
    wanted = os.path.join(asked.folder.top, "wanted.svg")
    run("tools/show", MODEL, "--svg", wanted)
    report.compare("lw ask --svg: the picture", text_of(wanted), text_of(out))
    told = asked.run("no\n" + model, 0, "gl", "p", "--svg", os.path.join(out, "out.svg"))
    report.check("lw ask --svg into no folder", told[0].startswith("no\n") and told[1].count("\n") == 1 and told[2] == 4, str(told))


def check_ends(report, asked):
    """What keeps an answer from coming is told in one line, with its status."""
    large = "ask: the formula has 129 distinct subformulas, and 128 at most are decided"
    for what, written, status, words, told, wanted in (
        ("too large", "fault: line 2: too large 129\n", 1, (), large, ("", 2)),
        ("text limit", "yes\nfault: line 3: text limit\n", 1, ("--show",), "ask: no certificate can be given: ", ("yes\n", 4)),
        ("nothing written", "", 0, (), "ask: the program gave no answer", ("", 2)),
        ("no memory", "", 5, (), "lw: memory is wanting", ("", 5)),
        ("a mistake", "yes\n", 0, ("--more",), "ask: unrecognized arguments: --more", ("", 2)),
    ):
        done = asked.run(written, status, "k", "p", *words)
        is_right = (done[0], done[2]) == wanted and done[1].startswith(told) and done[1].count("\n") == 1
        report.check("lw ask: %s" % what, is_right, str(done))
    done = asked.run("yes\n", 0, "k", "p", preexec_fn=lambda: os.close(1))
    report.compare("lw ask >&-", ("", "lw: the output could not be written whole\n", 4), done)
    done = asked.run("yes\n", 0, "k", "-", preexec_fn=lambda: os.close(0))
    report.check("lw ask k - <&-", (done[0], done[2]) == ("", 3) and done[1].count("\n") == 1, str(done))


def check_words(report, asked):
    told = asked.run("", 0, "--help")
    report.check("lw ask --help", told[0].startswith("usage: ask") and told[1:] == ("", 0), str(told))
    asked.folder.put_program(SLOW)
    asked.folder.run("vouch")
    late = "lw: stopped after 1 seconds, as --seconds wants; what was written is a first part\n"
    report.compare("lw --seconds 1 ask", ("", late, 124), asked.folder.run("--seconds", "1", "ask", "k", "p"))


def check_plain(report, asked):
    """Without python3: formulas in the signs of scripts."""
    report.compare("lw ask without python3: yes", ("yes\n", "", 0), asked.run("yes\n", 0, "k", "(p & q) <-> ~box p"))
    report.compare("lw ask without python3: its question", "A := (p & q) <-> ~box p;\nprint provable(k, A);\n", asked.question())
    report.compare("lw ask without python3: no", ("no\n", "", 1), asked.run("no\n", 0, "k", "p"))
    report.compare("lw ask without python3: -", ("no\n", "", 1), asked.run("no\n", 0, "k", "-", input="p ->\n\tq\r\n"))
    report.check("lw ask --help without python3", asked.run("", 0, "--help")[0].startswith("lw run FILE"))
    for words in (["k", "□p"], ["k", "p; print q"], ["k", "p # q"], ["k", "p, q"], ["k", "p", "--show"], ["k"], ["k, p)", "q"]):
        done = asked.run("yes\n", 0, *words)
        report.check("lw ask %s without python3" % words, (done[0], done[2]) == ("", 2) and done[1].count("\n") == 1, str(done))
    done = asked.run("fault: line 1 column 9: unexpected\n", 1, "k", "p &")
    report.check("lw ask k 'p &' without python3", (done[0], done[2]) == ("", 2) and "column 9: unexpected" in done[1], str(done))


def check_all(report):
    check_formulas(report)
    check_signs(report)
    check_mistakes(report)
    with tempfile.TemporaryDirectory() as room:
        asked = Asked(os.path.join(room, "whole"), ("python3", "sha256sum"))
        os.symlink(os.path.join(TOP, "tools"), os.path.join(asked.folder.top, "tools"))
        check_answers(report, asked)
        check_pictures(report, asked)
        check_ends(report, asked)
        check_words(report, asked)
        check_plain(report, Asked(os.path.join(room, "plain"), ()))
