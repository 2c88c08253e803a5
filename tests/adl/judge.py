"""Judges plans as `plan_judge judge` does, written from the specification and
as plainly as possible.

usage: python3 tests/adl/judge.py judge --domain DOMAIN --problem PROBLEM
           [--dialect DIALECT] [--format FORMAT] [--workers N] PLANS..

  --domain DOMAIN      the domain file
  --problem PROBLEM    the problem file
  --dialect DIALECT    strips (the default), ipc or adl
  --format FORMAT      lines (the default), tsv or json
  --workers N          1 to 32; changes nothing
  PLANS..              the planners' files

It shares no code with plan_judge, so that two programs can be compared that
were made in different ways. Where the specification leaves open which fault of
the dialect ipc is reported, it does what plan_judge does. A state is a set of
atoms, a quantifier is a loop over objects, and a condition is tested by walking
through it. So it is slow: a quantifier with a million bindings takes seconds.

The status is that of plan_judge: 0 if the report was written, 1 if a file or a
text is refused, and 2 if the call is wrong.
"""
from __future__ import annotations

import argparse
import dataclasses
import itertools
import re
import sys
from typing import BinaryIO, Dict, Iterator, List, NamedTuple, NoReturn, Optional, Sequence, Set, Tuple, Union

DIALECTS = ("strips", "ipc", "adl")  # each one reads all that those before it read
MOST_BYTES = 16_777_216
MOST_DEPTH = 64
MOST_TYPES = 1_024
MOST_OBJECTS = 65_535
MOST_DECLARATIONS = 4_096  # of predicates, of actions and of functions
MOST_VARIABLES = 32
MOST_ALTERNATIVES = 32
MOST_INCREASES = 32
MOST_BINDINGS = 16_777_216
MOST_STEPS = 1_000_000
MOST_PLANNERS = 64
MOST_PLANS = 65_536
BILLION = 1_000_000_000  # amounts are counted in billionths

RESERVED = {"and", "not", "or", "imply", "exists", "forall", "when", "either", "=", "<", ">", "<=", ">="}
NUMERIC_CHANGES = {"increase", "decrease", "assign", "scale-up", "scale-down"}
SIGNS = {"+", "-", "*", "/"}
NAME = re.compile(r"[a-z][a-z0-9_-]*")
VARIABLE = re.compile(r"\?[a-z][a-z0-9_-]*")
KEYWORD = re.compile(r":[a-z][a-z0-9_-]*")
NUMBER = re.compile(r"([0-9]{1,9})(?:\.([0-9]{1,9}))?")

# ---- words and parentheses ----------------------------------------------------------------------------------------------------------------------


class Word(NamedTuple):
    """A word in lower case, a parenthesis, or a bad byte, whose text is empty; and the bytes from `start` up to `end`."""
    text: str
    start: int
    end: int


@dataclasses.dataclass(frozen=True)
class Tree:
    """What is between two parentheses, whose offsets are `start` and `end`."""
    parts: List[Piece]
    start: int
    end: int


Piece = Union[Word, Tree]
TOKEN = re.compile(rb"[ \t\n\r\v\f]+|;[^\n]*|([()]|[!-'*-:<-~]+)|([^\n])", re.DOTALL)


class Fault(Exception):
    """Why a text is refused, and the bytes from `start` up to `end` that are to blame."""

    def __init__(self, kind: str, start: int, end: int) -> None:
        super().__init__(kind)
        self.kind, self.start, self.end = kind, start, end


def fault_at(kind: str, word: Word) -> Fault:
    """A fault of a word."""
    return Fault(kind, word.start, word.end)


def unexpected(piece: Piece) -> Fault:
    """The fault of a word, or of a list, that may not be where it is."""
    return fault_at("Expected", piece) if isinstance(piece, Word) else Fault("Expected", piece.start, piece.start + 1)


def missing_in(tree: Tree) -> Fault:
    """The fault of a list that ends too early."""
    return Fault("Expected", tree.end, tree.end + 1)


def words_of(text: bytes) -> Iterator[Word]:
    """The words, the parentheses and the bad bytes of a text."""
    for found in TOKEN.finditer(text):
        if found.lastindex == 1:
            yield Word(found[1].decode("ascii").lower(), found.start(), found.end())
        elif found.lastindex == 2:
            yield Word("", found.start(), found.end())


def trees_of(text: bytes) -> List[Piece]:
    """The first pass: bytes and parentheses. Gives the words and lists that are in no other list."""
    outermost: List[Piece] = []
    open_lists: List[Tuple[int, List[Piece]]] = []
    parts = outermost
    for word in words_of(text):
        if word.text == "":
            raise fault_at("BadText", word)
        if word.text == "(":
            if len(open_lists) == MOST_DEPTH:
                raise fault_at("TooDeep", word)
            open_lists.append((word.start, parts))
            parts = []
        elif word.text == ")":
            if not open_lists:
                raise fault_at("Unbalanced", word)
            start, around = open_lists.pop()
            around.append(Tree(parts, start, word.start))
            parts = around
        else:
            parts.append(word)
    if open_lists:
        raise Fault("Unbalanced", len(text), len(text))
    return outermost


# ---- what the grammar makes of a text -----------------------------------------------------------------------------------------------------------


@dataclasses.dataclass(frozen=True)
class Group:
    """Names or variables with their types. Without types they are of type `object`, and the group is the last of its list."""
    names: List[Word]
    types: List[Word]


@dataclasses.dataclass(frozen=True)
class Atom:
    """A predicate or a function with terms."""
    name: Word
    terms: List[Word]


@dataclasses.dataclass(frozen=True)
class Equality:
    """Two terms that are to be the same object."""
    terms: List[Word]


@dataclasses.dataclass(frozen=True)
class Joined:
    """Formulas joined by `and`, `or`, `not` or `imply`; `not` has one, `imply` two, the others any number."""
    word: str
    parts: List[Formula]


@dataclasses.dataclass(frozen=True)
class Quantified:
    """A formula under `exists` or `forall`."""
    word: str
    groups: List[Group]
    body: Formula


@dataclasses.dataclass(frozen=True)
class Change:
    """An effect that makes an atom true or false."""
    is_true: bool
    atom: Atom


@dataclasses.dataclass(frozen=True)
class Increase:
    """An increase of `total-cost`. The amount is a number of billionths, or a function with terms."""
    word: Word
    target: Word
    amount: Union[int, Atom]


@dataclasses.dataclass(frozen=True)
class Together:
    """Effects joined by `and`."""
    parts: List[Effect]


@dataclasses.dataclass(frozen=True)
class Each:
    """An effect under `forall`."""
    groups: List[Group]
    body: Effect


@dataclasses.dataclass(frozen=True)
class When:
    """An effect with a condition."""
    condition: Formula
    body: Effect


@dataclasses.dataclass(frozen=True)
class Value:
    """What `:init` says that a function of objects is, in billionths."""
    function: Atom
    number: Word
    amount: int


Formula = Union[Atom, Equality, Joined, Quantified]
Effect = Union[Change, Increase, Together, Each, When]
Literal = Union[Change, Value]
TRUTH = Joined("and", [])
NOTHING = Together([])


@dataclasses.dataclass(frozen=True)
class Declaration:
    """A predicate or a function."""
    name: Word
    groups: List[Group]


@dataclasses.dataclass
class Action:
    """An action. Parts that the text lacks are empty."""
    name: Word
    parameters: List[Group] = dataclasses.field(default_factory=list)
    precondition: Formula = TRUTH
    effect: Effect = NOTHING


@dataclasses.dataclass
class Domain:
    """A domain. Sections that the text lacks are empty."""
    name: str = ""
    types: List[Group] = dataclasses.field(default_factory=list)
    constants: List[Group] = dataclasses.field(default_factory=list)
    predicates: List[Declaration] = dataclasses.field(default_factory=list)
    functions: List[Declaration] = dataclasses.field(default_factory=list)
    actions: List[Action] = dataclasses.field(default_factory=list)


@dataclasses.dataclass
class Problem:
    """A problem. Sections that the text lacks are empty."""
    name: str = ""
    objects: List[Group] = dataclasses.field(default_factory=list)
    init: List[Literal] = dataclasses.field(default_factory=list)
    goal: Formula = TRUTH


# ---- the second pass: the grammar, in text order ------------------------------------------------------------------------------------------------


class Parts:
    """The parts of a list, taken one after another."""

    def __init__(self, tree: Tree) -> None:
        self.tree, self.taken = tree, 0

    def next(self) -> Optional[Piece]:
        """The part that is taken next, if there is one."""
        return self.tree.parts[self.taken] if self.taken < len(self.tree.parts) else None

    def take(self) -> Piece:
        """A part, which must be there."""
        piece = self.next()
        if piece is None:
            raise missing_in(self.tree)
        self.taken += 1
        return piece

    def take_word(self) -> Word:
        """A part that must be a word."""
        piece = self.take()
        if isinstance(piece, Tree):
            raise unexpected(piece)
        return piece

    def take_like(self, form: re.Pattern[str]) -> Word:
        """A part that must be a word of this form."""
        word = self.take_word()
        if not form.fullmatch(word.text):
            raise unexpected(word)
        return word

    def take_list(self) -> Tree:
        """A part that must be a list."""
        piece = self.take()
        if isinstance(piece, Word):
            raise unexpected(piece)
        return piece

    def end(self) -> None:
        """There must be no other part."""
        piece = self.next()
        if piece is not None:
            raise unexpected(piece)


def billionths(word: Word) -> int:
    """The amount that a number is."""
    found = NUMBER.fullmatch(word.text)
    if not found:
        raise unexpected(word)
    return int(found[1]) * BILLION + int((found[2] or "").ljust(9, "0"))


class Grammar:
    """Reads the lists of a domain or a problem, in one of the dialects."""

    def __init__(self, dialect: str) -> None:
        self.has_costs = dialect != "strips"
        self.has_quantifiers = dialect == "adl"

    def typed(self, parts: Parts, form: re.Pattern[str]) -> List[Group]:
        """Groups of names or of variables; `form` is what they look like. Only variables may have several types."""
        groups: List[Group] = []
        names: List[Word] = []
        while parts.next() is not None:
            word = parts.take_word()
            if word.text == "-" and names:
                groups.append(Group(names, self.type_after_dash(parts, form is VARIABLE)))
                names = []
            elif form.fullmatch(word.text):
                names.append(word)
            else:
                raise unexpected(word)
        return groups + [Group(names, [])] * bool(names)

    def type_after_dash(self, parts: Parts, is_of_variables: bool) -> List[Word]:
        """A type, or the types of an `either`."""
        piece = parts.take()
        if isinstance(piece, Word):
            if not NAME.fullmatch(piece.text):
                raise unexpected(piece)
            return [piece]
        inner = Parts(piece)
        if is_of_variables:
            head = inner.take_word()
            if head.text != "either":
                raise unexpected(head)
            types = [inner.take_like(NAME)]
            while inner.next() is not None:
                types.append(inner.take_like(NAME))
            return types
        head_of_list = inner.next()
        if isinstance(head_of_list, Word) and head_of_list.text == "either":
            raise fault_at("Unsupported", head_of_list)
        raise unexpected(piece)

    def variables(self, parts: Parts) -> List[Group]:
        """The list of variables that is the next part."""
        return self.typed(Parts(parts.take_list()), VARIABLE)

    def declaration(self, tree: Tree) -> Declaration:
        """A predicate or a function."""
        parts = Parts(tree)
        return Declaration(self.head_name(parts), self.typed(parts, VARIABLE))

    def head_name(self, parts: Parts) -> Word:
        """The head of a list that must be a name of the user's."""
        head = parts.take_word()
        if head.text in RESERVED:
            raise fault_at("Unsupported", head)
        if not NAME.fullmatch(head.text):
            raise unexpected(head)
        return head

    def functions(self, parts: Parts) -> List[Declaration]:
        """The functions of a section, in groups that may end with `- number`."""
        found: List[Declaration] = []
        is_group_open = False
        while parts.next() is not None:
            piece = parts.take()
            if isinstance(piece, Tree):
                found.append(self.declaration(piece))
                is_group_open = True
            elif piece.text == "-" and is_group_open:
                kind = parts.take_like(NAME)
                if kind.text != "number":
                    raise fault_at("Unsupported", kind)
                is_group_open = False
            else:
                raise unexpected(piece)
        return found

    def term(self, piece: Piece, may_be_variable: bool) -> Word:
        """A term of an atom."""
        if isinstance(piece, Tree):
            raise Fault("Unsupported", piece.start, piece.start + 1)
        if NAME.fullmatch(piece.text) or may_be_variable and VARIABLE.fullmatch(piece.text):
            return piece
        raise unexpected(piece)

    def atom(self, tree: Tree, may_have_variables: bool) -> Atom:
        """A predicate or a function with its terms."""
        parts = Parts(tree)
        name = self.head_name(parts)
        return Atom(name, [self.term(it, may_have_variables) for it in tree.parts[1:]])

    def equality(self, tree: Tree, may_have_variables: bool) -> Equality:
        """An equality of two terms. A list on either side would be a comparison of numbers, which is not read."""
        parts = Parts(tree)
        sign = parts.take_word()
        terms: List[Word] = []
        for _ in range(2):
            piece = parts.take()
            if isinstance(piece, Tree):
                raise fault_at("Unsupported", sign)
            terms.append(self.term(piece, may_have_variables))
        parts.end()
        return Equality(terms)

    def formula(self, tree: Tree, may_have_variables: bool) -> Formula:
        """A formula. Variables may be used in an action, and in a goal inside of quantifiers."""
        if not tree.parts:
            return TRUTH
        parts = Parts(tree)
        head = parts.take_word()
        if head.text == "and" or head.text == "or" and self.has_quantifiers:
            return Joined(head.text, [self.formula(it, may_have_variables) for it in self.trees(parts)])
        if head.text == "not":
            inner = parts.take_list()
            found = self.formula(inner, may_have_variables) if self.has_quantifiers else self.simple(inner, may_have_variables)
            parts.end()
            return Joined("not", [found])
        if self.has_quantifiers and head.text == "imply":
            both = [self.formula(parts.take_list(), may_have_variables) for _ in range(2)]
            parts.end()
            return Joined("imply", both)
        if self.has_quantifiers and head.text in ("exists", "forall"):
            groups = self.variables(parts)
            body = self.formula(parts.take_list(), True)
            parts.end()
            return Quantified(head.text, groups, body)
        return self.simple(tree, may_have_variables)

    def simple(self, tree: Tree, may_have_variables: bool) -> Formula:
        """A formula that is an atom or an equality."""
        if tree.parts and isinstance(tree.parts[0], Word) and tree.parts[0].text == "=" and self.has_costs:
            return self.equality(tree, may_have_variables)
        return self.atom(tree, may_have_variables)

    def trees(self, parts: Parts) -> Iterator[Tree]:
        """All parts that are left, which must be lists."""
        while parts.next() is not None:
            yield parts.take_list()

    def effect(self, tree: Tree, is_unconditional: bool = True) -> Effect:
        """An effect. Costs may only be increased by effects that are under neither `when` nor `forall`."""
        if not tree.parts:
            return NOTHING
        parts = Parts(tree)
        head = parts.take_word()
        if head.text == "and":
            return Together([self.effect(it, is_unconditional) for it in self.trees(parts)])
        if head.text == "not":
            atom = self.changed_atom(parts.take_list())
            parts.end()
            return Change(False, atom)
        if self.has_quantifiers and head.text in ("forall", "when"):
            return self.conditional(head, parts)
        if head.text == "increase" and is_unconditional and self.is_numeric_change(tree):
            return self.increase(head, parts)
        return Change(True, self.changed_atom(tree))

    def conditional(self, head: Word, parts: Parts) -> Effect:
        """The rest of an effect whose head is `forall` or `when`."""
        found: Effect
        if head.text == "forall":
            groups = self.variables(parts)
            found = Each(groups, self.effect(parts.take_list(), False))
        else:
            condition = self.formula(parts.take_list(), True)
            found = When(condition, self.effect(parts.take_list(), False))
        parts.end()
        return found

    def is_numeric_change(self, tree: Tree) -> bool:
        """Whether an effect changes a number: a word such as `increase` does so only if a list follows it."""
        head = tree.parts[0] if tree.parts else None
        is_word = isinstance(head, Word) and head.text in NUMERIC_CHANGES
        return self.has_costs and is_word and len(tree.parts) > 1 and isinstance(tree.parts[1], Tree)

    def changed_atom(self, tree: Tree) -> Atom:
        """The atom that an effect adds or deletes."""
        head = tree.parts[0] if tree.parts else None
        if isinstance(head, Word) and self.is_numeric_change(tree):
            raise fault_at("Unsupported", head)
        return self.atom(tree, True)

    def increase(self, head: Word, parts: Parts) -> Increase:
        """The rest of an increase."""
        target_parts = Parts(parts.take_list())
        target = target_parts.take_like(NAME)
        if target.text != "total-cost":
            raise fault_at("Unsupported", target)
        target_parts.end()
        piece = parts.take()
        amount = billionths(piece) if isinstance(piece, Word) else self.amount_of_function(piece)
        parts.end()
        return Increase(head, target, amount)

    def amount_of_function(self, tree: Tree) -> Atom:
        """An amount that is a function with terms. Amounts that are calculated are not read."""
        head = tree.parts[0] if tree.parts else None
        if isinstance(head, Word) and head.text in SIGNS:
            raise fault_at("Unsupported", head)
        return self.atom(tree, True)

    def initial(self, tree: Tree) -> Literal:
        """A literal of `:init`."""
        parts = Parts(tree)
        head = parts.take_word()
        if head.text == "not":
            atom = self.atom(parts.take_list(), False)
            parts.end()
            return Change(False, atom)
        if head.text == "=" and self.has_costs and isinstance(parts.next(), Tree):
            function = self.atom(parts.take_list(), False)
            number = parts.take_word()
            amount = billionths(number)
            parts.end()
            return Value(function, number, amount)
        return Change(True, self.atom(tree, False))

    def section_heads(self, parts: Parts, known: Sequence[str]) -> Iterator[Tuple[str, Parts]]:
        """The keyword of each section, and the parts that follow it."""
        seen: Set[str] = set()
        for tree in self.trees(parts):
            inner = Parts(tree)
            keyword = inner.take_like(KEYWORD)
            self.check_keyword(keyword, known, seen)
            yield keyword.text, inner

    def check_keyword(self, keyword: Word, known: Sequence[str], seen: Set[str]) -> None:
        """The keyword of a section, or of a part of an action, must be known and new; actions may come again."""
        if keyword.text not in known:
            raise fault_at("Unsupported", keyword)
        if keyword.text in seen and keyword.text != ":action":
            raise fault_at("Repeated", keyword)
        seen.add(keyword.text)

    def requirements(self, parts: Parts) -> None:
        """Keywords, on which nothing depends."""
        while parts.next() is not None:
            parts.take_like(KEYWORD)

    def action(self, parts: Parts) -> Action:
        """An action, in the parts that follow `:action`."""
        action = Action(parts.take_like(NAME))
        seen: Set[str] = set()
        while parts.next() is not None:
            keyword = parts.take_like(KEYWORD)
            self.check_keyword(keyword, (":parameters", ":precondition", ":effect"), seen)
            tree = parts.take_list()
            if keyword.text == ":parameters":
                action.parameters = self.typed(Parts(tree), VARIABLE)
            elif keyword.text == ":precondition":
                action.precondition = self.formula(tree, True)
            else:
                action.effect = self.effect(tree)
        return action

    def definition(self, text: bytes, word: str) -> Tuple[Parts, str, List[Piece]]:
        """The parts that follow `(define (WORD NAME)`, the name, and what follows the definition."""
        pieces = trees_of(text)
        if not pieces:
            raise Fault("Expected", len(text), len(text))
        if isinstance(pieces[0], Word):
            raise unexpected(pieces[0])
        parts = Parts(pieces[0])
        parts.take_like(re.compile("define"))
        head = Parts(parts.take_list())
        head.take_like(re.compile(word))
        name = head.take_like(NAME).text
        head.end()
        return parts, name, pieces[1:]

    def domain(self, text: bytes) -> Domain:
        """The first two passes through a domain."""
        parts, name, rest = self.definition(text, "domain")
        domain = Domain(name)
        known = (":requirements", ":types", ":constants", ":predicates", ":action") + (":functions",) * self.has_costs
        for keyword, inner in self.section_heads(parts, known):
            if keyword == ":requirements":
                self.requirements(inner)
            elif keyword == ":types":
                domain.types = self.typed(inner, NAME)
            elif keyword == ":constants":
                domain.constants = self.typed(inner, NAME)
            elif keyword == ":predicates":
                domain.predicates = [self.declaration(it) for it in self.trees(inner)]
            elif keyword == ":functions":
                domain.functions = self.functions(inner)
            else:
                domain.actions.append(self.action(inner))
        for piece in rest:
            raise unexpected(piece)
        return domain

    def problem(self, text: bytes) -> Problem:
        """The first two passes through a problem."""
        parts, name, rest = self.definition(text, "problem")
        problem = Problem(name)
        seen: Set[str] = set()
        for keyword, inner in self.section_heads(parts, (":domain", ":requirements", ":objects", ":init", ":goal", ":metric", ":length")):
            seen.add(keyword)
            if keyword == ":domain":
                inner.take_like(NAME)
                inner.end()
            elif keyword == ":requirements":
                self.requirements(inner)
            elif keyword == ":objects":
                problem.objects = self.typed(inner, NAME)
            elif keyword == ":init":
                problem.init = [self.initial(it) for it in self.trees(inner)]
            elif keyword == ":goal":
                problem.goal = self.formula(inner.take_list(), False)
                inner.end()
        if not {":domain", ":goal"} <= seen:
            raise missing_in(parts.tree)
        for piece in rest:
            raise unexpected(piece)
        return problem


# ---- the third pass: names and types ------------------------------------------------------------------------------------------------------------

Types = Tuple[str, ...]
Scope = Dict[str, Types]


def types_of_group(group: Group) -> Types:
    """The types of the names or variables of a group."""
    return tuple(it.text for it in group.types) or ("object",)


class Names:
    """What is declared: types with their parents, objects with their types, predicates and functions with the types of their variables."""

    def __init__(self) -> None:
        self.types: Set[str] = {"object"}
        self.parents: Dict[str, str] = {}
        self.objects: Dict[str, str] = {}
        self.predicates: Dict[str, List[Types]] = {}
        self.functions: Dict[str, List[Types]] = {}
        self.fitting: Dict[Types, List[str]] = {}

    def is_below(self, lower: str, upper: str) -> bool:
        """Whether one type is another one, or below it."""
        while lower != upper and lower != "object":
            lower = self.parents.get(lower, "object")
        return lower == upper

    def fits(self, types: Types, wanted: Types) -> bool:
        """Whether a term that may have each of these types fits a variable that may have each of the wanted ones."""
        return all(any(self.is_below(it, other) for other in wanted) for it in types)

    def objects_of(self, types: Types) -> List[str]:
        """The objects that a variable ranges over, each once."""
        if types not in self.fitting:
            self.fitting[types] = [it for it, kind in self.objects.items() if self.fits((kind,), types)]
        return self.fitting[types]


class Checker:
    """The third pass through a domain and a problem."""

    def __init__(self, dialect: str) -> None:
        self.has_costs = dialect != "strips"
        self.names = Names()
        self.actions: Dict[str, List[Types]] = {}
        self.counted: Dict[str, Word] = {}  # of each type the first declaration that counts
        self.values: Dict[Tuple[str, ...], int] = {}
        self.increases = 0  # of the action that is being checked

    def domain(self, domain: Domain) -> None:
        """All names and types of a domain."""
        for group in domain.types:
            self.type_group(group)
        self.cycles()
        self.objects(domain.constants)
        for predicate in domain.predicates:
            self.declaration(predicate.name, predicate.groups, self.names.predicates)
        for function in domain.functions:
            if function.name.text == "total-cost" and function.groups and function.name.text not in self.names.functions:
                raise fault_at("WrongCount", function.name)
            self.declaration(function.name, function.groups, self.names.functions)
        for action in domain.actions:
            self.declaration(action.name, action.parameters, self.actions, True)
            scope = {it.text: types_of_group(group) for group in action.parameters for it in group.names}
            self.formula(action.precondition, scope)
            self.increases = 0
            self.effect(action.effect, scope)

    def problem(self, problem: Problem) -> None:
        """All names and types of a problem, whose domain has been checked."""
        self.objects(problem.objects)
        for literal in problem.init:
            if isinstance(literal, Change):
                self.atom(literal.atom, self.names.predicates, {})
            else:
                self.value(literal)
        self.formula(problem.goal, {})

    def type_group(self, group: Group) -> None:
        """Types that are declared under one parent."""
        parent = types_of_group(group)[0]
        for name in group.names:
            if name.text == "object":
                if parent != "object":
                    raise fault_at("TypeCycle", name)
            else:
                self.type_under(name, parent)
        for word in group.types:
            self.count_type(word)

    def type_under(self, name: Word, parent: str) -> None:
        """One type under a parent. With costs, a declaration under `object` counts only if there is no other one."""
        old = self.names.parents.get(name.text)
        self.count_type(name)
        if old is None or self.has_costs and old == "object" and parent != "object":
            self.names.parents[name.text] = parent
            self.counted[name.text] = name
        elif old != parent and not (self.has_costs and parent == "object"):
            raise fault_at("Repeated", name)

    def count_type(self, word: Word) -> None:
        """A type that may be new."""
        if word.text not in self.names.types:
            if len(self.names.types) > MOST_TYPES:
                raise fault_at("TooMany", word)
            self.names.types.add(word.text)

    def cycles(self) -> None:
        """No chain of parents may lead back to where it begins."""
        for name in sorted(self.counted.values(), key=lambda it: it.start):
            above = self.names.parents.get(name.text)
            for _ in self.names.parents:
                if above == name.text:
                    raise fault_at("TypeCycle", name)
                above = self.names.parents.get(above or "object")

    def known_type(self, word: Word) -> None:
        """A type that must be declared."""
        if word.text not in self.names.types:
            raise fault_at("UnknownName", word)

    def objects(self, groups: List[Group]) -> None:
        """Constants or objects."""
        found = self.names.objects
        for group in groups:
            kind = types_of_group(group)[0]
            for name in group.names:
                if found.get(name.text, kind) != kind:
                    raise fault_at("Repeated", name)
                if name.text not in found and len(found) == MOST_OBJECTS:
                    raise fault_at("TooMany", name)
                found[name.text] = kind
            for word in group.types:
                self.known_type(word)

    def variables(self, groups: List[Group], are_distinct: bool) -> List[Types]:
        """The types of each variable of a list."""
        seen: Set[str] = set()
        found: List[Types] = []
        for group in groups:
            for name in group.names:
                if len(found) == MOST_VARIABLES:
                    raise fault_at("TooMany", name)
                if are_distinct and name.text in seen:
                    raise fault_at("Repeated", name)
                seen.add(name.text)
                found.append(types_of_group(group))
            for index, word in enumerate(group.types):
                if index == MOST_ALTERNATIVES:
                    raise fault_at("TooMany", word)
                self.known_type(word)
        return found

    def declaration(self, name: Word, groups: List[Group], known: Dict[str, List[Types]], are_distinct: bool = False) -> None:
        """A predicate, a function or an action with its variables."""
        if name.text in known:
            raise fault_at("Repeated", name)
        if len(known) == MOST_DECLARATIONS:
            raise fault_at("TooMany", name)
        known[name.text] = self.variables(groups, are_distinct)

    def types_of_term(self, term: Word, scope: Scope) -> Types:
        """The types that a term may have."""
        if term.text in scope:
            return scope[term.text]
        if term.text in self.names.objects:
            return (self.names.objects[term.text],)
        raise fault_at("UnknownName", term)

    def atom(self, atom: Atom, known: Dict[str, List[Types]], scope: Scope) -> None:
        """A predicate or a function with terms."""
        wanted = known.get(atom.name.text)
        if wanted is None:
            raise fault_at("UnknownName", atom.name)
        if len(wanted) != len(atom.terms):
            raise fault_at("WrongCount", atom.name)
        for term, types in zip(atom.terms, wanted):
            if not self.names.fits(self.types_of_term(term, scope), types):
                raise fault_at("WrongType", term)

    def inner_scope(self, groups: List[Group], scope: Scope) -> Scope:
        """The scope within a quantifier, whose variables hide those of the same names outside."""
        self.variables(groups, True)
        return {**scope, **{it.text: types_of_group(group) for group in groups for it in group.names}}

    def formula(self, formula: Formula, scope: Scope) -> None:
        """A formula, in text order."""
        if isinstance(formula, Atom):
            self.atom(formula, self.names.predicates, scope)
        elif isinstance(formula, Equality):
            for term in formula.terms:
                self.types_of_term(term, scope)
        elif isinstance(formula, Joined):
            for part in formula.parts:
                self.formula(part, scope)
        else:
            self.formula(formula.body, self.inner_scope(formula.groups, scope))

    def effect(self, effect: Effect, scope: Scope) -> None:
        """An effect, in text order."""
        if isinstance(effect, Change):
            self.atom(effect.atom, self.names.predicates, scope)
        elif isinstance(effect, Increase):
            self.increase(effect, scope)
        elif isinstance(effect, Together):
            for part in effect.parts:
                self.effect(part, scope)
        elif isinstance(effect, Each):
            self.effect(effect.body, self.inner_scope(effect.groups, scope))
        else:
            self.formula(effect.condition, scope)
            self.effect(effect.body, scope)

    def increase(self, effect: Increase, scope: Scope) -> None:
        """An increase of the cost."""
        self.increases += 1
        if self.increases > MOST_INCREASES:
            raise fault_at("TooMany", effect.word)
        if effect.target.text not in self.names.functions:
            raise fault_at("UnknownName", effect.target)
        if isinstance(effect.amount, Atom):
            self.atom(effect.amount, self.names.functions, scope)

    def value(self, value: Value) -> None:
        """A value in `:init`. The same one may be given again."""
        self.atom(value.function, self.names.functions, {})
        place = (value.function.name.text, *(it.text for it in value.function.terms))
        if self.values.setdefault(place, value.amount) != value.amount:
            raise fault_at("Repeated", value.number)


# ---- the limit of bindings ----------------------------------------------------------------------------------------------------------------------


class Bindings:
    """Adds up the bindings of the quantifiers of one action, or of a goal."""

    def __init__(self, names: Names) -> None:
        self.names, self.sum = names, 0

    def quantifier(self, groups: List[Group], around: int) -> int:
        """Counts a quantifier, inside of others that together have `around` bindings. Gives the bindings of all of them together."""
        counts = [(it, len(self.names.objects_of(types_of_group(group)))) for group in groups for it in group.names]
        product = around
        for _, count in counts:
            product *= count
        if counts and self.sum + product > MOST_BINDINGS:
            self.refuse(counts, around)
        self.sum += product * bool(counts)
        return product

    def refuse(self, counts: List[Tuple[Word, int]], around: int) -> NoReturn:
        """The fault of a quantifier that passes the limit, which is at the first variable with which it does."""
        product = around
        for name, count in counts[:-1]:
            product *= count
            if self.sum + product > MOST_BINDINGS:
                raise fault_at("TooMany", name)
        raise fault_at("TooMany", counts[-1][0])

    def formula(self, formula: Formula, around: int = 1) -> None:
        """Counts the quantifiers of a formula, in text order."""
        if isinstance(formula, Joined):
            for part in formula.parts:
                self.formula(part, around)
        elif isinstance(formula, Quantified):
            self.formula(formula.body, self.quantifier(formula.groups, around))

    def effect(self, effect: Effect, around: int = 1) -> None:
        """Counts the quantifiers of an effect, in text order."""
        if isinstance(effect, Together):
            for part in effect.parts:
                self.effect(part, around)
        elif isinstance(effect, Each):
            self.effect(effect.body, self.quantifier(effect.groups, around))
        elif isinstance(effect, When):
            self.formula(effect.condition, around)
            self.effect(effect.body, around)


# ---- plan texts ---------------------------------------------------------------------------------------------------------------------------------

Step = Tuple[str, ...]
STAMP = re.compile(NUMBER.pattern + ":")
BRACKETED = re.compile(r"\[" + NUMBER.pattern + r"\]")
SEPARATOR = re.compile(rb"^---[ \t\r]*(?:\n|\Z)", re.MULTILINE)


class Unreadable(Exception):
    """A text is not a plan text, because of what is in this line."""

    def __init__(self, line: int) -> None:
        super().__init__(line)
        self.line = line


def line_of(text: bytes, offset: int) -> int:
    """The line of an offset, counted from 1."""
    return 1 + text.count(b"\n", 0, offset)


class PlanReader:
    """Reads the words of a plan text one after another."""

    def __init__(self) -> None:
        self.steps: List[Step] = []
        self.step: Optional[List[str]] = None  # the words of the step that is open
        self.has_stamp = self.may_have_number = False
        self.last_stamp = -1

    def take(self, text: str) -> bool:
        """Takes a word, if a plan may go on with it."""
        if self.step is not None:
            return self.take_in_step(text)
        may_have_number, self.may_have_number = self.may_have_number, False
        if BRACKETED.fullmatch(text):
            return may_have_number
        if len(self.steps) == MOST_STEPS:
            return False
        if text == "(":
            self.step, self.has_stamp = [], False
            return True
        return not self.has_stamp and self.take_stamp(text)

    def take_in_step(self, text: str) -> bool:
        """Takes a word of a step, or its end."""
        words = self.step or []
        if text == ")" and words:
            self.steps.append(tuple(words))
            self.step, self.may_have_number = None, True
            return True
        words.append(text)
        self.step = words
        return bool(NAME.fullmatch(text))

    def take_stamp(self, text: str) -> bool:
        """Takes a stamp, which must be later than all before it."""
        found = STAMP.fullmatch(text)
        if not found:
            return False
        stamp = billionths(Word(text[:-1], 0, 0))
        is_later, self.last_stamp = stamp > self.last_stamp, stamp
        self.has_stamp = True
        return is_later

    def is_between_steps(self) -> bool:
        """Whether a text may end here."""
        return self.step is None and not self.has_stamp


def read_plan(text: bytes) -> List[Step]:
    """The steps of a plan text."""
    reader = PlanReader()
    for word in words_of(text):
        if not reader.take(word.text):
            raise Unreadable(line_of(text, word.start))
    if not reader.is_between_steps():
        raise Unreadable(line_of(text, len(text)))
    return reader.steps


# ---- judging ------------------------------------------------------------------------------------------------------------------------------------

State = Set[Tuple[str, ...]]  # the atoms that are true, each a predicate and its objects
Binding = Dict[str, str]  # the objects that variables are
Shown = Union[str, List["Shown"]]  # a condition as it is printed: a word, or a list


class Verdict(NamedTuple):
    """The verdict on a plan: `valid`, `fails`, `goal` or `unreadable`, and what belongs to it."""
    kind: str
    steps: int = 0  # of a valid plan
    cost: Optional[int] = None  # of a valid plan, in billionths; None if it is undefined
    number: int = 0  # of the step that fails, from 1
    step: Step = ()
    reason: str = ""
    argument: int = 0  # which one is to blame, from 1
    missing: Sequence[Shown] = ()
    line: int = 0


def ground(atom: Atom, binding: Binding) -> Tuple[str, ...]:
    """An atom with the objects that its terms are."""
    return (atom.name.text, *(binding.get(it.text, it.text) for it in atom.terms))


def shown_groups(groups: List[Group]) -> List[Shown]:
    """The variables of a quantifier with their types. A last group of type `object` is shown without it."""
    found: List[Shown] = []
    for group in groups:
        found += [it.text for it in group.names]
        types = types_of_group(group)
        kind: Shown = types[0] if len(types) == 1 else ["either", *types]
        if group is not groups[-1] or kind != "object":
            found += ["-", kind]
    return found


def shown(formula: Formula, binding: Binding) -> Shown:
    """A condition as it is printed: with objects in place of the action's variables, but not of those of its own quantifiers."""
    if isinstance(formula, Atom):
        return [*ground(formula, binding)]
    if isinstance(formula, Equality):
        return ["=", *(binding.get(it.text, it.text) for it in formula.terms)]
    if isinstance(formula, Joined):
        return [formula.word, *(shown(it, binding) for it in formula.parts)]
    own = {it.text for group in formula.groups for it in group.names}
    outer = {name: thing for name, thing in binding.items() if name not in own}
    return [formula.word, shown_groups(formula.groups), shown(formula.body, outer)]


def text_of(condition: Shown) -> str:
    """A condition as text."""
    return condition if isinstance(condition, str) else "(%s)" % " ".join(map(text_of, condition))


def conjuncts(formula: Formula) -> Iterator[Formula]:
    """The conditions that a formula lists: its parts, through any depth of `and` in `and`."""
    if isinstance(formula, Joined) and formula.word == "and":
        for part in formula.parts:
            yield from conjuncts(part)
    else:
        yield formula


class Task:
    """A domain and a problem that were accepted."""

    def __init__(self, domain: Domain, problem: Problem, checker: Checker) -> None:
        self.names = checker.names
        self.actions = {it.name.text: it for it in domain.actions}
        self.parameters = checker.actions
        self.values = checker.values
        self.init = {ground(it.atom, {}) for it in problem.init if isinstance(it, Change) and it.is_true}
        self.goal = problem.goal
        self.counts_costs = "total-cost" in self.names.functions

    def bindings(self, groups: List[Group], binding: Binding) -> Iterator[Binding]:
        """A binding for each choice of objects for the variables of a quantifier, which hide those of the same names outside."""
        names = [it.text for group in groups for it in group.names]
        choices = [self.names.objects_of(types_of_group(group)) for group in groups for _ in group.names]
        for objects in itertools.product(*choices):
            yield {**binding, **dict(zip(names, objects))}

    def holds(self, formula: Formula, state: State, binding: Binding) -> bool:
        """Whether a formula holds in a state."""
        if isinstance(formula, Atom):
            return ground(formula, binding) in state
        if isinstance(formula, Equality):
            left, right = (binding.get(it.text, it.text) for it in formula.terms)
            return left == right
        if isinstance(formula, Quantified):
            each = (self.holds(formula.body, state, it) for it in self.bindings(formula.groups, binding))
            return any(each) if formula.word == "exists" else all(each)
        parts = (self.holds(it, state, binding) for it in formula.parts)
        if formula.word == "and":
            return all(parts)
        if formula.word == "or":
            return any(parts)
        if formula.word == "not":
            return not next(parts)
        return not next(parts) or next(parts)

    def missing(self, formula: Formula, state: State, binding: Binding) -> List[Shown]:
        """The conditions of a formula that do not hold, each once."""
        found: Dict[str, Shown] = {}
        for part in conjuncts(formula):
            if not self.holds(part, state, binding):
                condition = shown(part, binding)
                found.setdefault(text_of(condition), condition)
        return list(found.values())

    def changes(self, effect: Effect, state: State, binding: Binding) -> Iterator[Tuple[bool, Tuple[str, ...]]]:
        """The atoms that an effect changes, and whether to true. All its conditions are about the state before."""
        if isinstance(effect, Change):
            yield effect.is_true, ground(effect.atom, binding)
        elif isinstance(effect, Together):
            for part in effect.parts:
                yield from self.changes(part, state, binding)
        elif isinstance(effect, Each):
            for inner in self.bindings(effect.groups, binding):
                yield from self.changes(effect.body, state, inner)
        elif isinstance(effect, When) and self.holds(effect.condition, state, binding):
            yield from self.changes(effect.body, state, binding)

    def after(self, effect: Effect, state: State, binding: Binding) -> State:
        """The state after an effect. What is both deleted and added is true."""
        changes = list(self.changes(effect, state, binding))
        deleted = {atom for is_true, atom in changes if not is_true}
        added = {atom for is_true, atom in changes if is_true}
        return (state - deleted) | added if deleted or added else state

    def cost_of(self, effect: Effect, binding: Binding) -> Optional[int]:
        """What a step costs, or None if that is undefined."""
        if isinstance(effect, Increase):
            return effect.amount if isinstance(effect.amount, int) else self.values.get(ground(effect.amount, binding))
        costs = [self.cost_of(it, binding) for it in effect.parts] if isinstance(effect, Together) else []
        return None if None in costs else sum(it or 0 for it in costs)

    def wrong_step(self, number: int, step: Step) -> Optional[Verdict]:
        """The verdict if a step is no step of the task, whatever the state."""
        wrong = Verdict("fails", number=number, step=step)
        if step[0] not in self.actions:
            return wrong._replace(reason="unknown action")
        parameters = self.parameters[step[0]]
        if len(parameters) != len(step) - 1:
            return wrong._replace(reason="wrong number of arguments")
        for index, name in enumerate(step[1:], 1):
            if name not in self.names.objects:
                return wrong._replace(reason="unknown object", argument=index)
        for index, (name, types) in enumerate(zip(step[1:], parameters), 1):
            if not self.names.fits((self.names.objects[name],), types):
                return wrong._replace(reason="wrong type", argument=index)
        return None

    def verdict(self, text: bytes) -> Verdict:
        """The verdict on a plan text."""
        try:
            steps = read_plan(text)
        except Unreadable as unreadable:
            return Verdict("unreadable", line=unreadable.line)
        state: State = set(self.init)
        costs: List[Optional[int]] = [self.values.get(("total-cost",), 0)]
        for number, step in enumerate(steps, 1):
            wrong = self.wrong_step(number, step)
            if wrong:
                return wrong
            action = self.actions[step[0]]
            variables = (it.text for group in action.parameters for it in group.names)
            binding = dict(zip(variables, step[1:]))
            missing = self.missing(action.precondition, state, binding)
            if missing:
                return Verdict("fails", number=number, step=step, reason="missing", missing=missing)
            costs.append(self.cost_of(action.effect, binding))
            state = self.after(action.effect, state, binding)
        missing = self.missing(self.goal, state, {})
        if missing:
            return Verdict("goal", missing=missing)
        return Verdict("valid", len(steps), None if None in costs else sum(it or 0 for it in costs))


# ---- the report ---------------------------------------------------------------------------------------------------------------------------------


class Planner(NamedTuple):
    """A planner's name, and the verdicts on its plans."""
    name: str
    verdicts: List[Verdict]

    def valid(self) -> List[Verdict]:
        """The verdicts on its valid plans."""
        return [it for it in self.verdicts if it.kind == "valid"]

    def best(self) -> Optional[int]:
        """The least number of steps of a valid plan."""
        return min((it.steps for it in self.valid()), default=None)

    def best_cost(self) -> Optional[int]:
        """The least defined cost of a valid plan."""
        return min((it.cost for it in self.valid() if it.cost is not None), default=None)


def decimal(amount: Optional[int], undefined: str) -> str:
    """A number of billionths as a decimal number, or the word for an undefined one."""
    if amount is None:
        return undefined
    whole, rest = divmod(amount, BILLION)
    return f"{whole}.{rest:09}".rstrip("0").rstrip(".")


def reason_text(verdict: Verdict) -> str:
    """Why a step cannot be taken."""
    if verdict.reason == "unknown object":
        return "unknown object " + verdict.step[verdict.argument]
    if verdict.reason == "wrong type":
        return verdict.step[verdict.argument] + " has the wrong type"
    return verdict.reason


class Report:
    """Writes what was judged."""

    def __init__(self, domain: str, problem: str, planners: List[Planner], counts_costs: bool) -> None:
        self.domain, self.problem, self.planners, self.counts_costs = domain, problem, planners, counts_costs

    def cost_text(self, amount: Optional[int]) -> str:
        """The end of a line, if costs are counted."""
        return " cost " + decimal(amount, "-") if self.counts_costs else ""

    def verdict_text(self, verdict: Verdict) -> str:
        """A verdict in a report of lines."""
        conditions = "".join(" " + text_of(it) for it in verdict.missing)
        if verdict.kind == "valid":
            return f"valid {verdict.steps}{self.cost_text(verdict.cost)}"
        if verdict.kind == "fails":
            return f"fails at {verdict.number} {text_of(list(verdict.step))}: {reason_text(verdict)}{conditions}"
        if verdict.kind == "goal":
            return "goal missing" + conditions
        return f"unreadable line {verdict.line}"

    def lines(self) -> Iterator[str]:
        """The report for people."""
        yield f"domain {self.domain} problem {self.problem}"
        for planner in self.planners:
            for number, verdict in enumerate(planner.verdicts, 1):
                yield f"{planner.name} {number} {self.verdict_text(verdict)}"
            best = planner.best()
            counts = f"plans {len(planner.verdicts)} valid {len(planner.valid())} best {'-' if best is None else best}"
            yield f"{planner.name} {counts}{self.cost_text(planner.best_cost())}"

    def row(self, verdict: Verdict) -> List[str]:
        """The columns of a plan from `verdict` on."""
        missing = " ".join(map(text_of, verdict.missing))
        if verdict.kind == "valid":
            return ["valid", str(verdict.steps), decimal(verdict.cost, "-") if self.counts_costs else "", "", "", "", "", ""]
        if verdict.kind == "fails":
            return ["fails", "", "", str(verdict.number), text_of(list(verdict.step)), reason_text(verdict), missing, ""]
        if verdict.kind == "goal":
            return ["goal", "", "", "", "", "", missing, ""]
        return ["unreadable", "", "", "", "", "", "", str(verdict.line)]

    def tsv(self) -> Iterator[str]:
        """The report as a table."""
        yield "\t".join("domain problem planner plan verdict steps cost step action reason missing line".split())
        escapes = str.maketrans({"\t": "\\t", "\n": "\\n", "\r": "\\r", "\\": "\\\\"})
        for planner in self.planners:
            for number, verdict in enumerate(planner.verdicts, 1):
                yield "\t".join([self.domain, self.problem, planner.name.translate(escapes), str(number), *self.row(verdict)])

    def members(self, verdict: Verdict) -> List[Tuple[str, str]]:
        """The members of a plan's record from `verdict` on."""
        missing = ("missing", json_of(verdict.missing))
        if verdict.kind == "valid":
            return [("steps", str(verdict.steps))] + [("cost", decimal(verdict.cost, "null"))] * self.counts_costs
        if verdict.kind == "fails":
            found = [("step", str(verdict.number)), ("action", json_of(verdict.step)), ("reason", json_of(verdict.reason))]
            return found + [missing] * (verdict.reason == "missing") + [("argument", str(verdict.argument))] * (verdict.argument > 0)
        return [missing] if verdict.kind == "goal" else [("line", str(verdict.line))]

    def json(self) -> Iterator[str]:
        """The report as records."""
        yield json_record([("type", '"run"'), ("domain", json_of(self.domain)), ("problem", json_of(self.problem))])
        for planner in self.planners:
            name = ("planner", json_of(planner.name))
            for number, verdict in enumerate(planner.verdicts, 1):
                head = [("type", '"plan"'), name, ("plan", str(number)), ("verdict", json_of(verdict.kind))]
                yield json_record(head + self.members(verdict))
            best = planner.best()
            counts = [("plans", str(len(planner.verdicts))), ("valid", str(len(planner.valid()))), ("best", "null" if best is None else str(best))]
            costs = [("cost", decimal(planner.best_cost(), "null"))] * self.counts_costs
            yield json_record([("type", '"planner"'), name] + counts + costs)


def json_of(value: Union[Shown, Sequence[Shown]]) -> str:
    """A string, or a list of strings and lists, in JSON."""
    if not isinstance(value, str):
        return "[%s]" % ",".join(map(json_of, value))
    return '"%s"' % re.sub(r'["\\\x00-\x1f]', lambda it: "\\" + it[0] if it[0] in '"\\' else f"\\u{ord(it[0]):04x}", value)


def json_record(members: List[Tuple[str, str]]) -> str:
    """An object in JSON, of names and values that are in JSON."""
    return "{%s}" % ",".join(f'"{name}":{value}' for name, value in members)


# ---- a run --------------------------------------------------------------------------------------------------------------------------------------


class Refusal(Exception):
    """Why a run ends without a report: a kind, and if they apply a file, a line and the bytes of a fault."""

    def __init__(self, kind: str, file: Optional[str] = None, role: str = "", line: int = 0, span: Tuple[int, int] = (0, 0)) -> None:
        super().__init__(kind)
        self.kind, self.file, self.role, self.line, self.span = kind, file, role, line, span

    def text(self) -> str:
        """The line on standard error."""
        if self.role:
            return f"{self.role} line {self.line} bytes {self.span[0]}-{self.span[1]}: {self.kind}"
        if self.kind == "Unreadable":
            return f"cannot read {self.file}"
        if self.kind == "TooLarge":
            return f"{self.file} is too large"
        return f"more than {MOST_PLANNERS} planners" if self.kind == "TooManyPlanners" else f"more than {MOST_PLANS} plans"

    def json(self) -> str:
        """The line on standard error of a run in JSON."""
        file = "null" if self.file is None else json_of(self.file)
        line, span = (str(self.line), f"[{self.span[0]},{self.span[1]}]") if self.role else ("null", "null")
        return json_record([("type", '"refused"'), ("file", file), ("line", line), ("bytes", span), ("kind", json_of(self.kind))])


class Call:
    """The words of a command line."""

    def __init__(self, words: Sequence[str]) -> None:
        parser = argparse.ArgumentParser(prog="judge.py", allow_abbrev=False, usage="%(prog)s judge --domain DOMAIN --problem PROBLEM [OPTION..] PLANS..")
        parser.add_argument("command", choices=["judge"])
        parser.add_argument("--domain", required=True)
        parser.add_argument("--problem", required=True)
        parser.add_argument("--dialect", choices=DIALECTS, default="strips")
        parser.add_argument("--format", choices=["lines", "tsv", "json"], default="lines")
        parser.add_argument("--workers", type=int, choices=range(1, 33), default=4, metavar="N")
        parser.add_argument("plans", nargs="+")
        found = parser.parse_intermixed_args(list(words))
        self.domain, self.problem, self.dialect, self.format = found.domain, found.problem, found.dialect, found.format
        self.plans: List[str] = found.plans

    def wrong(self) -> Optional[str]:
        """What is wrong with the words, although they have the right form."""
        for word in [self.domain, self.problem, *self.plans]:
            if re.search(r"[\udc80-\udcff]", word):  # how Python keeps bytes that are not UTF-8
                seen = re.sub(r"[\udc80-\udcff]", lambda it: f"\\x{ord(it[0]) - 0xdc00:02x}", word)
                return f'the word "{seen}" is not UTF-8'
        if [self.domain, self.problem, *self.plans].count("-") > 1:
            return "- is standard input, which can be read only once; a file of that name is ./-"
        for name in self.plans:
            if self.format == "lines" and re.search(r"[\x00-\x1f\x7f]", name):
                seen = re.sub(r"[\x00-\x1f\x7f]", lambda it: f"\\x{ord(it[0]):02x}", name)
                return f'the name "{seen}" has a control character, which a report in lines cannot show; --format tsv and --format json can'
        return None


def read_file(name: str) -> bytes:
    """What a file holds, or one byte more than a file may have."""
    try:
        if name == "-":
            return sys.stdin.buffer.read(MOST_BYTES + 1)
        with open(name, "rb") as file:
            return file.read(MOST_BYTES + 1)
    except (OSError, ValueError, AttributeError) as fault:  # without standard input there is no sys.stdin
        raise Refusal("Unreadable", name) from fault


def read_files(call: Call) -> List[bytes]:
    """What the files of a call hold, the domain and the problem first."""
    names = [call.domain, call.problem, *call.plans]
    texts = [read_file(it) for it in names]
    for name, text in zip(names, texts):
        if len(text) > MOST_BYTES:
            raise Refusal("TooLarge", name)
    if len(call.plans) > MOST_PLANNERS:
        raise Refusal("TooManyPlanners")
    return texts


class Blame:
    """Turns a fault within a `with` into the refusal of a file."""

    def __init__(self, role: str, file: str, text: bytes) -> None:
        self.role, self.file, self.text = role, file, text

    def __enter__(self) -> None:
        pass

    def __exit__(self, kind: object, fault: object, trace: object) -> None:
        if isinstance(fault, Fault):
            raise Refusal(fault.kind, self.file, self.role, line_of(self.text, fault.start), (fault.start, fault.end)) from fault


def report_of(call: Call) -> Report:
    """Reads the files of a call and judges all plans."""
    domain_text, problem_text, *plan_texts = read_files(call)
    of_domain, of_problem = Blame("domain", call.domain, domain_text), Blame("problem", call.problem, problem_text)
    grammar, checker = Grammar(call.dialect), Checker(call.dialect)
    with of_domain:
        domain = grammar.domain(domain_text)
        checker.domain(domain)
    with of_problem:
        problem = grammar.problem(problem_text)
        checker.names.fitting.clear()
        checker.problem(problem)
    with of_domain:
        for action in domain.actions:
            bindings = Bindings(checker.names)
            bindings.formula(action.precondition)
            bindings.effect(action.effect)
    with of_problem:
        Bindings(checker.names).formula(problem.goal)
    bundles = [SEPARATOR.split(it) for it in plan_texts]
    if sum(map(len, bundles)) > MOST_PLANS:
        raise Refusal("TooManyPlans")
    task = Task(domain, problem, checker)
    planners = [Planner(name, [task.verdict(it) for it in plans]) for name, plans in zip(call.plans, bundles)]
    return Report(domain.name, problem.name, planners, task.counts_costs)


def main(words: Sequence[str], out: BinaryIO, err: BinaryIO) -> int:
    """Runs a command line, whose words these are without the program's name, and gives the status."""
    call = Call(words)
    wrong = call.wrong()
    if wrong:
        err.write(f"error: {wrong}\n".encode("utf-8", "surrogateescape"))
        return 2
    try:
        report = report_of(call)
    except Refusal as refusal:
        line = refusal.json() if call.format == "json" else refusal.text()
        err.write((line + "\n").encode("utf-8", "surrogateescape"))
        return 1
    lines = report.tsv() if call.format == "tsv" else report.json() if call.format == "json" else report.lines()
    out.write("".join(it + "\n" for it in lines).encode("utf-8", "surrogateescape"))
    return 0


if __name__ == "__main__":
    if sys.argv[1:] in (["--help"], ["-h"], ["judge", "--help"]):
        print(__doc__, end="")
        sys.exit(0)
    sys.exit(main(sys.argv[1:], sys.stdout.buffer, sys.stderr.buffer))
