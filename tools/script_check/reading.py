"""Reads a script as far as its errors need it: tokens, statements and numbered expressions.

gx has read the script before; what is here only says where a statement or an expression stands. To
add a statement with expressions, add its keyword to SETS, to DEFAULT_SETS or to `expressions_of`.
"""

import re

LOADS = ("vertices", "edges", "edgelist")
SETS = ("mapvertices", "mapedges", "maptriplets", "mapvalues", "joinvertices", "innerjoin")
DEFAULT_SETS = ("outerjoin", "leftjoin")
COMPARISONS = ("==", "!=", "<", "<=", ">", ">=")
PRECEDENCES = {"or": 1, "and": 2, **dict.fromkeys(COMPARISONS, 4), "+": 5, "-": 5}
PRECEDENCES |= {"*": 6, "/": 6, "%": 6}
TOKEN = re.compile(
    rb"(?P<gap>[ \t\r\n]+|#[^\n]*)|(?P<word>[A-Za-z][A-Za-z0-9_]*)|(?P<number>[0-9]+)"
    rb'|(?P<text>"(?:[^"\\\n\r]|\\["\\ntr])*")|(?P<symbol>[=!<>]=|[(),;:.=<>+*/%-])'
)


class Token:
    """A token of a script: its offset, its spelling, and what it is."""

    def __init__(self, match):
        self.offset, self.end, self.what = match.start(), match.end(), match.lastgroup
        self.text = match[0].decode(errors="replace")

    def is_word(self):
        return self.what == "word"


def tokens_of(script):
    """The tokens up to the first byte that begins none."""
    found = []
    offset = 3 if script.startswith(b"\xef\xbb\xbf") else 0
    while match := TOKEN.match(script, offset):
        offset = match.end()
        if match.lastgroup != "gap":
            found.append(Token(match))
    return found


def statements_of(tokens):
    """The tokens of each statement, without its `;`. The last has what follows the last `;`."""
    statements = [[]]
    for token in tokens:
        if token.text == ";":
            statements.append([])
        else:
            statements[-1].append(token)
    return statements


def without_data(script, statements):
    """The script with `""` for the first file that it loads, and blanks so that offsets stay."""
    for words in statements:
        if len(words) > 3 and words[0].text in LOADS and words[3].what == "text":
            start, end = words[3].offset, words[3].end
            return script[:start] + b'""' + b" " * (end - start - 2) + script[end:]
    return script


class Expressions:
    """Parses the expressions of a statement that gx has accepted, to number them as gx does."""

    def __init__(self, words, position):
        self.words, self.position = words, position

    def text(self, ahead=0):
        at = self.position + ahead
        return self.words[at].text if at < len(self.words) else ""

    def take(self):
        self.position += 1
        return self.words[self.position - 1]

    def expression(self, least=1):
        """The tree of an expression, as the token of an operation and the list of its operands."""
        tree = self.operand()
        while least <= (level := PRECEDENCES.get(self.text(), 0)):
            operator = self.take()
            tree = (operator, [tree, self.expression(level + 1)])
        return tree

    def operand(self):
        token = self.take()
        if token.text == "(":
            inside = self.expression()
            self.take()
            return inside
        if self.text() == "." and token.is_word():
            self.position += 2
        elif token.text == "not":
            return (token, [self.expression(4)])
        elif token.text == "-":
            return (token, [self.operand()])
        elif self.text() == "(" and token.is_word():
            return (token, self.listed())
        return (token, [])

    def listed(self, has_names=False):
        """The expressions of a list in parentheses."""
        found = []
        self.take()
        while self.text() != ")":
            if has_names:
                self.position += 2
            found.append(self.expression())
            if self.text() == ",":
                self.take()
        self.take()
        return found

    def skip_list(self):
        depth = 0
        while True:
            depth += {"(": 1, ")": -1}.get(self.take().text, 0)
            if depth == 0:
                return

    def sends(self):
        found = []
        while self.text() == "to":
            self.position += 2
            found += self.listed()
            if self.text() == "when":
                self.take()
                found.append(self.expression())
        return found


def expressions_of(words):
    """The trees of the expressions of a statement, in text order."""
    keyword = words[0].text
    has_two = len(words) > 4 and words[4].text == ","
    parser = Expressions(words, 6 if has_two else 4)
    if keyword == "filter":
        parser.take()
        return [parser.expression()]
    if keyword == "subgraph":
        found = []
        while parser.take().text in ("vertices", "edges"):
            found.append(parser.expression())
            if not parser.text():
                break
        return found
    if keyword == "aggregate":
        return parser.sends()
    if keyword == "pregel":
        while parser.text() != "merge" or parser.text(1) != "(":
            parser.take()
        for _ in ("merge", "initial"):
            parser.take()
            parser.skip_list()
        parser.take()
    elif keyword in DEFAULT_SETS:
        parser.take()
        parser.skip_list()
    found = parser.listed(has_names=True)
    return found + parser.sends() if keyword == "pregel" else found


def numbered(trees):
    """The tokens of all operations, texts, numbers and columns, each before its operands."""
    for token, operands in trees:
        yield token
        yield from numbered(operands)
