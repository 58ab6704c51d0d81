"""Whether what tools/show --latex writes is what is meant, and whether pdflatex takes it where it is installed."""

import os
import shutil
import subprocess
import tempfile

from certificates.formulas import spelled
from checks.running import run
from checks.show import data_of, models
from showing import cases, latex, picture, tikz, views
from showing.signs import in_latex

PAGES = ("loeb-in-gl", "loeb-in-k", "two-worlds-see-each-other", "dead-end-in-kt", "two-spaces")
# what is said of pages 4 and 5, the one with a model that is rejected, and the other with no certificate
FAULTS = ("rejected: model: the relation isn't one of KT: world 0 doesn't see itself.", ":39: fault: line 6: proof text")
FORMULA = b"box ~p1 v dia(q & true) -> (p <-> false) v good_name"
FORMULA_WRITTEN = r"\Box \neg p_{1} \lor \Diamond (q \land \top) \to (p \leftrightarrow \bot) \lor \mathit{good\_name}"
# the tree of a proof by hand
LOEB = r"""\begin{forest}
for tree={draw,rounded corners=2pt,align=center,l sep=20pt,s sep=12pt,inner sep=4pt,font=\small}
[{\textbf{world 0}\\ $F\;\Box (\Box p \to p) \to \Box p$\\ 1. \emph{one} $\alpha$ $F\;\Box (\Box p \to p) \to \Box p$},thick,edge={->}
[{$T\;\Box (\Box p \to p)$\\ $F\;\Box p$\\ 2. \emph{step} $\pi$ $F\;\Box p$}
[{\textbf{world 1}\\ $F\;p$\\ $T\;\Box p$\\ $T\;\Box (\Box p \to p)$\\ $T\;\Box p \to p$\\ 3. \emph{two} $\beta$ $T\;\Box p \to p$},thick,edge={->}
[{$F\;\Box p$\\ 4. \emph{close} $\nu$ $T\;\Box p$ with $F\;\Box p$}
]
[{$T\;p$\\ 5. \emph{close} $T\;p$ with $F\;p$}
]
]
]
]
\end{forest}
"""
BROKEN = r"4. \emph{close} $\nu$ $T\;\Box p$\\ breaks its rule: T $\Box p$ isn't in the set"
DEAD_END = [
    r"\draw[fill=white] (40.0,50.0) circle[radius=20.0];",
    r"\node[anchor=base] at (40.0,54.5) {\textbf{0}};",
    r"\draw (60.0,50.0) -- (90.0,51.0);",
    r"\draw (0.0,1.0) .. controls (2.0,3.0) and (4.0,5.0) .. (6.0,7.0);",
    r"\fill (10.0,20.0) -- (12.0,20.0) -- (11.0,24.0) -- cycle;",
    r"\node[anchor=base] at (7.0,9.0) {$p_{1}$ $q$};",
]
# a picture that is made for this, with each kind of element
SVG = """<svg xmlns="http://www.w3.org/2000/svg" width="100" height="200"><title>A</title><desc>B</desc><style>text { }</style>
<rect width="100%" height="100%" fill="white"/><g transform="translate(10 20)"><circle class="world" cx="30" cy="30" r="20.0"/>
<text class="number middle" x="30" y="34.5">0</text><path d="M 50.0 30.0 L 80.0 31.0"/></g>
<path d="M 0 1 C 2 3, 4 5, 6 7"/><path class="head" d="M 10 20 L 12 20 L 11 24 Z"/>
<text class="middle" x="7" y="9">p1 q</text><text class="caption" x="1" y="2">World 0 sees □p</text></svg>"""


def check_words(report):
    report.compare("a formula in LaTeX", FORMULA_WRITTEN, in_latex(spelled(FORMULA)))
    written, status = run("tools/show", "examples/check/loeb-in-gl.txt", "--latex")
    report.check("show --latex of a proof", status == 0 and LOEB in written, written)
    written, status = run("tools/show", "examples/check/loeb-in-k.txt", "--latex")
    report.check("show --latex of a rejected proof", status == 1 and BROKEN in written, written)
    written = run("tools/show", "examples/check/five-pigeons-in-four-holes.txt", "--latex")
    report.compare("show --latex of too many steps", ("show: a tree of 815 boxes is too large for TeX; --tree and --svg have no such limit\n", 1), written)


def check_drawing(report):
    report.compare("a picture in TikZ", DEAD_END, list(tikz.drawing(SVG.split("\n")))[1:-1])
    report.compare("its caption", "World 0 sees □p", tikz.caption_of(SVG.split("\n")))
    for name, logic, goal, model in models():
        case = cases.Case("", data_of(name))
        try:
            figure = latex.of_model(case, views.of_case(case, [], True, True))
        except picture.TooManyArrows:
            continue
        worlds = sum(r"\textbf{%d}" % w in "\n".join(figure.lines) for w in range(len(model[0])))
        report.compare("%s in TikZ: worlds" % name, len(model[0]), worlds)


def has_latex():
    if shutil.which("pdflatex") is None or shutil.which("kpsewhich") is None:
        return False
    return subprocess.run(["kpsewhich", "forest.sty"], stdout=subprocess.DEVNULL, check=False).returncode == 0


def document(folder):
    """A document with several certificates, as a script's output could have them."""
    output = os.path.join(folder, "output.txt")
    with open(output, "wb") as file:
        file.writelines(data_of(name) for name in PAGES)
    return run("tools/show", output, "--latex")


def check_document(report):
    with tempfile.TemporaryDirectory() as folder:
        written, status = document(folder)
    report.check("show --latex of several certificates", status == 1 and all(words in written for words in FAULTS), written)


def check_compiled(report):
    if not has_latex():
        print("tools: LaTeX skipped, since pdflatex with the package forest isn't installed")
        return
    with tempfile.TemporaryDirectory() as folder:
        with open(os.path.join(folder, "paper.tex"), "w", encoding="utf-8") as file:
            file.write(document(folder)[0])
        command = ["pdflatex", "-interaction=nonstopmode", "-halt-on-error", "paper.tex"]
        done = subprocess.run(command, cwd=folder, stdout=subprocess.PIPE, stderr=subprocess.STDOUT, check=False)
    told = done.stdout.decode("utf-8", "replace")
    good = done.returncode == 0 and "paper.pdf (%d pages" % len(PAGES) in told and "Overfull" not in told
    report.check("pdflatex on what show --latex writes", good, told)


def check_all(report):
    check_words(report)
    check_drawing(report)
    check_document(report)
    check_compiled(report)
