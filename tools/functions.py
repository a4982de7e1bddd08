"""Finds the functions of a Rattle source file, and where the parts of each stand.

It reads tokens, not the language: strings, comments and characters are passed over, brackets are matched, and the clauses between a signature
and its body (`requires`, `ensures`, `ghost`) are told from the body.
"""

import re
from dataclasses import dataclass

TOKEN = re.compile(
    r"""//[^\n]*|/\*.*?\*/|[bc]?r(#*)".*?"\1|[bc]?"(?:[^"\\]|\\.)*"|'(?:\\[^\n][^'\n]*|[^'\\\n])'|'[A-Za-z_]\w*|[A-Za-z_]\w*|[{}()\[\];<>=]|->|.""",
    re.DOTALL,
)
CLAUSES = ("requires", "ensures", "ghost")
OPENS, CLOSES = "{([", "})]"
NAME = re.compile(r"[A-Za-z_]\w*")


@dataclass(frozen=True)
class Function:
    """A function with a body: its name, the type or trait whose block it stands in, if any, and whether a trait asks for it; where its item begins, with what
    stands in front of `fn`; where its name, its body and its end are."""

    name: str
    owner: str
    is_of_trait: bool
    item: int
    at: int
    start: int
    end: int


def tokens_of(text):
    """The tokens of a text that aren't blank or a comment, each with its place."""
    for found in TOKEN.finditer(text):
        word = found[0]
        if not word.isspace() and not word.startswith(("//", "/*")):
            yield word, found.start()


def closing(tokens, at):
    """The number of the token that closes the bracket that stands at a number."""
    depth = 0
    for number in range(at, len(tokens)):
        depth += (tokens[number][0] in OPENS) - (tokens[number][0] in CLOSES)
        if not depth:
            return number
    return len(tokens) - 1


def body_of(tokens, at):
    """The numbers of the tokens that open and close the body of the function whose name stands at a number, or None where it has none."""
    in_clause = False
    while at < len(tokens):
        word = tokens[at][0]
        if word == ";":
            return None
        if word in CLAUSES:
            in_clause = True
        elif word == "{" and not in_clause:
            return at, closing(tokens, at)
        elif word in OPENS:
            at = closing(tokens, at)
            in_clause = in_clause and word != "{"
        at += 1
    return None


def owner_of(tokens, at):
    """The type of the `impl` whose keyword stands at a number, whether it is of a trait, and the number of its opening bracket."""
    depth, names, is_of_trait, is_past_where = 0, [], False, False
    for number in range(at + 1, len(tokens)):
        word = tokens[number][0]
        if word == "{":
            return (names[0] if names else ""), is_of_trait, number
        depth += (word == "<") - (word == ">" and tokens[number - 1][0] not in ("-", "="))
        is_past_where = is_past_where or word == "where"
        if word == "for" and not depth:
            names, is_of_trait = [], True
        elif not depth and not is_past_where and NAME.fullmatch(word) and word not in ("mut", "dyn", "unsafe"):
            # The last segment of a path, as Fault of fault::Fault.
            names[:1] = [word]
    return "", False, len(tokens)


def functions_of(text):
    """The functions of a text with a body, in their order; one that stands in another's body is a part of that one."""
    tokens, found, owners, at, item = list(tokens_of(text)), [], [], 0, 0
    while at < len(tokens):
        word = tokens[at][0]
        owners = [owner for owner in owners if at <= owner[2]]
        if word in ("impl", "trait"):
            owner, is_of_trait, opened = owner_of(tokens, at)
            if opened < len(tokens):
                owners.append((owner, is_of_trait or word == "trait", closing(tokens, opened)))
                at = opened
        elif word == "fn" and at + 1 < len(tokens) and NAME.fullmatch(tokens[at + 1][0]):
            body = body_of(tokens, at + 2)
            if body:
                opened, closed = body
                owner, is_of_trait, _ = owners[-1] if owners else ("", False, 0)
                places = (tokens[item][1], tokens[at + 1][1], tokens[opened][1], tokens[closed][1] + 1)
                found.append(Function(tokens[at + 1][0], owner, is_of_trait, *places))
                at = closed
        if tokens[min(at, len(tokens) - 1)][0] in ("{", "}", ";"):
            item = at + 1
        at += 1
    return found
