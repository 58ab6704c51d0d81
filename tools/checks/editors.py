"""Whether the editors' words and symbols are those of the crates' sources, and whether they know scripts and comments."""

import fnmatch
import glob
import json
import os
import plistlib
import re
import shutil
import subprocess
import tempfile

from checks import words
from checks.report import TOP, text_of

VIM = "tools/editors/vim/syntax/%s.vim"
TEXTMATE = "tools/editors/textmate/syntaxes/%s.tmLanguage.json"
VIM_GROUPS = {
    "connective": "lwConnective",
    "word": "lwWord",
    "truth": "lwTruth",
    "answer": "lwAnswer",
    "statement": "lwStatement",
    "function": "lwFunction",
    "logic": "lwLogic",
    "reserved": "lwReserved",
}
TEXTMATE_GROUPS = {
    "connective": "keyword.operator.connective.lw",
    "word": "keyword.operator.word.lw",
    "truth": "constant.language.truth.lw",
    "answer": "constant.language.answer.lw",
    "statement": "keyword.control.lw",
    "function": "support.function.lw",
    "logic": "support.type.logic.lw",
    "reserved": "invalid.illegal.reserved.lw",
}


def vim_keywords(name):
    """The words of each group."""
    rows = re.findall(r"^syn keyword (\w+) (.*)$", text_of(VIM % name), re.MULTILINE)
    return {group: set(listed.split()) for group, listed in rows}


def vim_pattern(name, group):
    return re.search(r'^syn match %s "(.*)"' % group, text_of(VIM % name), re.MULTILINE).group(1)


def choices(pattern, bar, opening, closing):
    """The words between the first brackets of a pattern."""
    return set(pattern.split(opening, 1)[1].split(closing, 1)[0].split(bar))


def vim_symbols(name):
    pattern = vim_pattern(name, "lwSymbol")
    found = set()
    for part in re.findall(r"\[(?:\\.|[^\]\\])+\]|(?:\\\[|\\\]|[^\\\[])+", pattern.replace("\\|", "\n")):
        if part.startswith("["):
            found |= set(part[1:-1].replace("\\", ""))
        else:
            found |= {word.replace("\\", "") for word in part.split("\n") if word}
    return found


def textmate_matches(name):
    """The patterns of a grammar by their names."""
    grammar = json.loads(text_of(TEXTMATE % name))
    return {pattern["name"]: pattern["match"] for pattern in grammar["patterns"] if "match" in pattern and "name" in pattern}


def textmate_words(name):
    return {key: choices(match, "|", "(", ")") for key, match in textmate_matches(name).items() if match.startswith("\\b(")}


def textmate_symbols(name):
    pattern = textmate_matches(name)["keyword.operator.symbol.lw"]
    return {word.replace("\\", "") for word in re.split(r"(?<!\\)\|", pattern)}


def check_scripts(report):
    groups = words.script_groups()
    report.compare("reserved words of scripts", words.reserved(), set().union(*groups.values()))
    vim, textmate = vim_keywords("lw"), textmate_words("lw")
    report.compare("Vim's groups of scripts", set(VIM_GROUPS.values()), set(vim))
    for group, wanted in groups.items():
        report.compare("Vim, scripts, %s" % group, wanted, vim.get(VIM_GROUPS[group]))
        report.compare("TextMate, scripts, %s" % group, wanted, textmate.get(TEXTMATE_GROUPS[group]))
    report.compare("Vim, symbols of scripts", words.script_symbols(), vim_symbols("lw"))
    report.compare("TextMate, symbols of scripts", words.script_symbols(), textmate_symbols("lw"))


def check_formulas(report):
    vim, textmate = vim_keywords("lwformula"), textmate_words("lwformula")
    report.compare("Vim, words of formulas", words.formula_words(), set().union(*vim.values()))
    report.compare("TextMate, words of formulas", words.formula_words(), set().union(*textmate.values()))
    report.compare("Vim, symbols of formulas", words.formula_symbols(), vim_symbols("lwformula"))
    report.compare("TextMate, symbols of formulas", words.formula_symbols(), textmate_symbols("lwformula"))


def words_of_patterns(patterns):
    """The small words of patterns, apart from classes of letters and digits."""
    text = " ".join(patterns).replace("\\\\n", " ")
    return set(re.findall(r"[a-z][a-z0-9]+|\bk\b", re.sub(r"\[[^\]]*\]|\\%|\\|%", " ", text)))


def check_certificates(report):
    wanted = words.certificate_words() | words.rules() | words.logics()
    vim = re.findall(r'^syn match \w+ "(.*?)"', text_of(VIM % "lwcertificate"), re.MULTILINE)
    grammar = json.loads(text_of(TEXTMATE % "lwcertificate"))
    textmate = [row.get("match") or row["begin"] for row in grammar["patterns"]]
    report.compare("Vim, words of certificates", wanted, words_of_patterns(vim))
    report.compare("TextMate, words of certificates", wanted, words_of_patterns(textmate))
    rules = choices(vim_pattern("lwcertificate", "lwRule"), "\\|", "\\%(", "\\)")
    report.compare("Vim, rules", words.rules(), rules)
    report.compare("TextMate, rules", words.rules(), choices(textmate[3], "|", "(", ")"))


def check_package(report):
    """The package of TextMate's grammars names its files, and each is there with its scope."""
    package = json.loads(text_of("tools/editors/textmate/package.json"))
    for row in package["contributes"]["grammars"]:
        grammar = json.loads(text_of("tools/editors/textmate/" + row["path"]))
        report.compare("scope of %s" % row["path"], row["scopeName"], grammar["scopeName"])


# how the lines of a .txt file begin, and the language that Vim is to find
KNOWN = [
    ("# words\n\nA := p;\n", "lw"),
    ("if yes then print 1; end\n", "lw"),
    ("  while no do end\n", "lw"),
    ("for I := 1 to 2 do end\n", "lw"),
    ("print\n  p;\n", "lw"),
    ("certificate 1\nlogic k\n", "lwcertificate"),
    ("print this page, and read it\n", "text"),
    ("A letter\n", "text"),
    ("for in while\n", "text"),
    ("# words alone\n", "text"),
    ("", "text"),
]
# for each of the files that are its arguments, in order: its language, and what its comments are
VIM_SCRIPT = """
let found = []
for name in argv()
  execute 'edit' fnameescape(name)
  call add(found, &filetype . '|' . &commentstring)
endfor
call writefile(found, $FOUND)
qall!
"""


def examples(folder):
    """Those files that hold more than white space."""
    paths = sorted(glob.glob(os.path.join(TOP, "examples", folder, "*.txt")))
    return [path for path in paths if text_of(path).strip()]


def found_by_vim(room, paths):
    """The language and the sign of comments of each file, as Vim finds them."""
    script, found = os.path.join(room, "script.vim"), os.path.join(room, "found")
    with open(script, "w", encoding="utf-8") as file:
        file.write(VIM_SCRIPT)
    folder = os.path.join(TOP, "tools", "editors", "vim")
    command = ["vim", "-Nnes", "-u", "NONE", "-i", "NONE", "--cmd", "let &runtimepath = '%s,' . &runtimepath" % folder]
    command += ["--cmd", "filetype plugin on", "-S", script] + paths
    quiet = dict.fromkeys(("stdin", "stdout", "stderr"), subprocess.DEVNULL)
    subprocess.run(command, timeout=120, env=dict(os.environ, FOUND=found), **quiet)
    with open(found, encoding="utf-8") as file:
        return [tuple(line.split("|", 1)) for line in file.read().splitlines()]


def has_vim():
    if shutil.which("vim") is None:
        return False
    done = subprocess.run(["vim", "--version"], stdout=subprocess.PIPE, stderr=subprocess.DEVNULL, text=True)
    return "+eval" in done.stdout


def check_vim(report):
    """What Vim, where it is installed, finds in the examples and in other texts."""
    if not has_vim():
        print("tools: Vim's languages aren't tried, since it isn't installed or is a small one")
        return
    wanted = [(path, "lw") for path in examples("run")] + [(path, "lwcertificate") for path in examples("check")]
    with tempfile.TemporaryDirectory() as room:
        for number, (text, language) in enumerate(KNOWN):
            wanted.append((os.path.join(room, "%d.txt" % number), language))
            with open(wanted[-1][0], "w", encoding="utf-8") as file:
                file.write(text)
        found = found_by_vim(room, [path for path, _ in wanted])
    report.compare("the number of files that Vim read", len(wanted), len(found))
    for (path, language), (seen, comment) in zip(wanted, found):
        report.compare("Vim on %s" % os.path.basename(path), language, seen)
        if language == "lw":
            report.compare("Vim's comments in %s" % os.path.basename(path), "# %s", comment)


def check_comments(report):
    """The files that tell VS Code and TextMate of comments, and by which VS Code knows the examples."""
    package = json.loads(text_of("tools/editors/textmate/package.json"))
    languages = {row["id"]: row for row in package["contributes"]["languages"]}
    for name, folder in (("lw", "run"), ("lwcertificate", "check")):
        patterns = languages[name]["filenamePatterns"]
        known = all(any(fnmatch.fnmatch(path, pattern) for pattern in patterns) for path in examples(folder))
        report.check("VS Code on examples/%s" % folder, known, str(patterns))
    told = json.loads(text_of("tools/editors/textmate/" + languages["lw"]["configuration"]))
    report.compare("VS Code's comments", {"lineComment": "#"}, told["comments"])
    with open(os.path.join(TOP, "tools", "editors", "textmate", "preferences", "lw.tmPreferences"), "rb") as file:
        told = plistlib.load(file)
    report.compare("TextMate's comments: scope", "source.lw", told["scope"])
    report.compare("TextMate's comments", [{"name": "TM_COMMENT_START", "value": "# "}], told["settings"]["shellVariables"])


def check_all(report):
    check_scripts(report)
    check_formulas(report)
    check_certificates(report)
    check_package(report)
    check_comments(report)
    check_vim(report)
