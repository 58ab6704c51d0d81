"""Reads a problem in DFG, the form of SPASS, with one modal formula, into the tree of ours.

This is the grammar by which SPASS 3.9 reads such a file (the functions dfg_parse_problem, dfg_parse_description,
dfg_parse_symbol_list, dfg_parse_special_formula_list and dfg_parse_prop_term of dfgparser.c), without the parts that are
refused by name:

    problem     ::= begin_problem(ID). description symbols formulas end_problem.
    description ::= list_of_descriptions. name({*..*}). author({*..*}). [version({*..*}).] [logic({*..*}).] status(STATUS).
                    description({*..*}). [date({*..*}).] end_of_list.
    symbols     ::= [list_of_symbols. [predicates[symbol {, symbol}].] end_of_list.]        symbol ::= ID | (ID, number)
    formulas    ::= list_of_special_formulae(conjectures, eml). prop_formula(prop [, ID]). end_of_list.
    prop        ::= true | false | ID | not(prop) | and(prop {, prop}) | or(prop {, prop}) | implies(prop, prop)
                  | implied(prop, prop) | equiv(prop, prop) | box(ID, prop) | all(ID, prop) | dia(ID, prop) | some(ID, prop)

A relation and a variable are predicates that are declared with the arity 0, or with none. `and` and `or` of more than two
group to the right here: in which way says nothing.
"""

import re

from certificates.formulas import is_name
from exchange.reading import Words

# `%` begins a comment, as in dfglexer.c
PATTERN = r"(?s)%[^\n]*|[ \f\r\t\v\n]+|(\{\*.*?\*\}|[A-Za-z0-9_]+|.)"
# the keywords of tokens.inc, which name nothing
KEYWORDS = set(
    "MIN AED App CRW Con Def EmS EqF EqR Fac Inp MPm MRR OHy OPm Obv Res Rew SHy SPASS SPm SSi SoR SpL SpR Spt Ter Top URR UnC "
    "and author axioms begin_problem by clause cnf concept_formula conjectures date description dnf eml end_of_list end_problem "
    "equal equiv exists extrafuns false freely forall formula functions generated hypothesis implied implies include "
    "list_of_clauses list_of_declarations list_of_descriptions list_of_formulae list_of_general_settings list_of_includes "
    "list_of_proof list_of_settings list_of_special_formulae list_of_symbols logic name nand nor not operators or predicate "
    "predicates prop_formula quantifiers rel_formula role_formula satisfiable set_flag set_precedence set_selection "
    "set_ClauseFormulaRelation set_DomPred sort sorts splitlevel status step subsort translpairs true unknown unsatisfiable "
    "version xor".split()
)
STATUSES = ("satisfiable", "unsatisfiable", "unknown")
CONSTANTS = ("true", "false")
CHAINS = {"and": "&", "or": "v"}
PAIRS = {"implies": "->", "implied": "->", "equiv": "<->"}
MODAL = {"box": "box", "all": "box", "dia": "dia", "some": "dia"}
RELATIONS = "or and not true false sum comp conv test id div domrestr ranrestr implies implied equiv nand nor xor".split()
REFUSED = {
    "functions": "first-order symbols",
    "sorts": "first-order symbols",
    "operators": "first-order symbols",
    "quantifiers": "first-order symbols",
    "translpairs": "first-order names of predicates",
    "list_of_declarations": "declarations of sorts",
    "list_of_formulae": "first-order formulas",
    "list_of_clauses": "clauses",
    "list_of_proof": "a proof",
    "list_of_includes": "other files",
    "list_of_general_settings": "settings",
    "list_of_settings": "settings, which may change the logic",
    "list_of_special_formulae": "a second list of formulas",
    "axioms": "formulas that are to be true at all worlds",
    "prop_formula": "a second formula",
    "formula": "a first-order formula",
    "rel_formula": "a formula of relations",
    "nand": "a connective that SPASS 3.9 reads and doesn't translate",
    "nor": "a connective that SPASS 3.9 reads and doesn't translate",
    "xor": "a connective that SPASS 3.9 reads and doesn't translate",
    "domain": "a relation's domain",
    "range": "a relation's range",
}


class Reader:
    """Reads a problem. `arities` has the predicates that are declared, and `relation` the first relation that is used."""

    def __init__(self, text):
        self.words, self.arities, self.relation = Words(PATTERN, text), {}, None

    def refuse(self):
        word = self.words.next()
        self.words.refuse(", %s, isn't turned" % REFUSED[word] if word in REFUSED else " isn't understood here")

    def want(self, *words):
        for word in words:
            if not self.words.accept(word):
                self.refuse()

    def identifier(self):
        word = self.words.next()
        if re.fullmatch("[A-Za-z0-9_]+", word) is None or word in KEYWORDS:
            self.refuse()
        return self.words.take()

    def whole(self):
        self.want("begin_problem", "(")
        self.identifier()
        self.want(")", ".")
        self.description()
        self.symbols()
        self.want("list_of_special_formulae", "(", "conjectures", ",", "eml", ")", ".", "prop_formula", "(")
        a = self.formula()
        if self.words.accept(","):
            self.identifier()
        self.want(")", ".", "end_of_list", ".", "end_problem", ".", "")
        return a

    def description(self):
        self.want("list_of_descriptions", ".")
        for key, needed in (("name", True), ("author", True), ("version", False), ("logic", False)):
            self.told(key, needed)
        self.want("status", "(")
        if self.words.next() not in STATUSES:
            self.refuse()
        self.words.take()
        self.want(")", ".")
        self.told("description", True)
        self.told("date", False)
        self.want("end_of_list", ".")

    def told(self, key, needed):
        """An entry of the description, which is a text."""
        if needed or self.words.next() == key:
            self.want(key, "(")
            if not self.words.next().startswith("{*"):
                self.refuse()
            self.words.take()
            self.want(")", ".")

    def symbols(self):
        if self.words.accept("list_of_symbols"):
            self.want(".")
            if self.words.accept("predicates"):
                self.want("[")
                self.symbol()
                while self.words.accept(","):
                    self.symbol()
                self.want("]", ".")
            self.want("end_of_list", ".")

    def symbol(self):
        if not self.words.accept("("):
            self.arities[self.identifier()] = 0
            return
        name = self.identifier()
        self.want(",")
        if not self.words.next().isdecimal():
            self.refuse()
        self.arities[name] = int(self.words.take())
        self.want(")")

    def predicate(self):
        """A predicate without arguments."""
        word = self.words.next()
        if word in KEYWORDS or word in REFUSED or re.fullmatch("[A-Za-z0-9_]+", word) is None:
            self.refuse()
        if word not in self.arities:
            self.words.refuse(" isn't declared among the predicates")
        if self.arities[word]:
            self.words.refuse(" is declared with the arity %d, and has no arguments here" % self.arities[word])
        return word

    def formula(self):
        word = self.words.next()
        if word in CONSTANTS:
            return (self.words.take(),)
        if word in CHAINS or word in PAIRS or word in MODAL or word == "not":
            self.words.take()
            self.want("(")
            a = self.inside(word)
            self.want(")")
            return a
        if not is_name(self.predicate()):
            self.words.refuse(" isn't turned, since it can't be the name of a variable in the workbench")
        return ("letter", self.words.take())

    def inside(self, word):
        """The formula that begins with this word, whose operands come."""
        if word in MODAL:
            self.take_relation()
            self.want(",")
            return (MODAL[word], self.formula())
        if word == "not":
            return ("~", self.formula())
        if word in CHAINS:
            return self.chain(CHAINS[word])
        a = self.formula()
        self.want(",")
        b = self.formula()
        return (PAIRS[word], b, a) if word == "implied" else (PAIRS[word], a, b)

    def chain(self, sign):
        operands = [self.formula()]
        while self.words.accept(","):
            operands.append(self.formula())
        a = operands.pop()
        while operands:
            a = (sign, operands.pop(), a)
        return a

    def take_relation(self):
        word = self.words.next()
        if word in RELATIONS:
            self.words.refuse(", a relation that isn't a name, isn't turned")
        self.relation = self.relation or self.predicate()
        if word != self.relation:
            self.words.refuse(", another relation, isn't turned: there is one, %s" % self.relation)
        self.words.take()


def read(text):
    """The formula of the problem; CannotTurn where there is something else in it."""
    return Reader(text).whole()
