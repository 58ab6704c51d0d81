"""The reserved words and the symbols as the crates' sources have them."""

import re

from checks.report import text_of

SCRIPT_WORDS = "crates/lw_ast/src/part.rt"
FORMULA_WORDS = "crates/lw_read/src/lexeme.rt"
CERTIFICATE_SOURCES = "crates/lw_cert/src/"


def functions_of(path):
    """The bodies of a source's functions by their names."""
    parts = re.split(r"^\s*(?:pub )?fn (\w+)", text_of(path), flags=re.MULTILINE)
    return dict(zip(parts[1::2], parts[2::2]))


def words_in(text):
    return set(re.findall(r'b?"([a-z][a-z0-9]*) ?"', text))


def symbols_in(text):
    return set(re.findall(r'b?"([^\sA-Za-z0-9"{}]+)"', text))


def reserved():
    text = text_of("crates/lw_formula/src/name.rt")
    return words_in(text[text.index("RESERVED") : text.index("];")])


def logics():
    return words_in(functions_of("crates/lw_formula/src/logic.rt")["word"])


def formula_words():
    return words_in(functions_of(FORMULA_WORDS)["word_part"])


def script_groups():
    """The words of scripts in their groups, and those that are reserved and stand in no script."""
    bodies = functions_of(SCRIPT_WORDS)
    shared = formula_words()
    operators = words_in(bodies["operator_part"])
    constants = words_in(bodies["constant_part"])
    groups = {
        "connective": operators & shared,
        "word": operators - shared,
        "truth": constants & shared,
        "answer": constants - shared,
        "statement": words_in(bodies["statement_part"]),
        "function": words_in(bodies["function_of"]),
        "logic": logics(),
    }
    used = set().union(*groups.values())
    return dict(groups, reserved=reserved() - used)


def script_symbols():
    text = text_of("crates/lw_read/src/lexer.rt")
    return symbols_in(text[text.index("const SYMBOLS") :].split("];")[0])


def formula_symbols():
    return symbols_in(functions_of(FORMULA_WORDS)["symbol_part"])


def rules():
    return words_in(functions_of(CERTIFICATE_SOURCES + "words.rt")["rule_word"])


def certificate_words():
    """The words at the head of lines and within them, apart from the rules."""
    found = set()
    for name in ("writer.rt", "model_writer.rt", "proof_writer.rt"):
        for piece in re.findall(r'b"([^"]*)"', text_of(CERTIFICATE_SOURCES + name)):
            found |= set(re.findall(r"[a-z]+", piece.replace("\\n", " ")))
    return found
