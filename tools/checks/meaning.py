"""What a script means over plain lists: an interpreter of its own, which shares no code with gx.

A table is a dictionary from identifiers to rows, edges are a list of (source, destination, row),
and a graph is a pair of both. A row is a tuple of values: an int, a str, a bool, or a tuple of ints
for a list. The rules are those of docs/language.md. It reads no text and no file: random_scripts.py
makes the statements, and the texts that gx reads.
"""

import operator

LEAST, GREATEST = -(2**63), 2**63 - 1
MOST_TEXT_BYTES = 1024


class Fault(Exception):
    """An expression has no value on the row of a vertex."""

    def __init__(self, expression, cause):
        super().__init__()
        self.expression, self.cause, self.vertex = expression, cause, None

    def __str__(self):
        return f"vertex {self.vertex}, expression {self.expression}: {self.cause}"


class Node:
    """An operation and its operands, or a constant or a name, which has a value and no operand."""

    def __init__(self, name, *operands, value=None):
        self.name, self.operands, self.value, self.number = name, operands, value, None


def number_nodes(nodes, first=0):
    """Numbers the nodes of these expressions in text order, each before its operands."""
    for node in nodes:
        node.number = first
        first = number_nodes(node.operands, first + 1)
    return first


def sort_key(value):
    return value.encode() if isinstance(value, str) else value


def row_key(row):
    return tuple(map(sort_key, row))


def quotient(a, b):
    """Truncated toward zero."""
    return abs(a) // abs(b) * (1 if (a < 0) == (b < 0) else -1)


COMPARISONS = {
    "==": operator.eq,
    "!=": operator.ne,
    "<": operator.lt,
    "<=": operator.le,
    ">": operator.gt,
    ">=": operator.ge,
}

OPERATIONS = {
    "+": operator.add,
    "-": operator.sub,
    "*": operator.mul,
    "/": quotient,
    "%": lambda a, b: a - b * quotient(a, b),
    "negate": operator.neg,
    "not": operator.not_,
    "abs": abs,
    "len": lambda a: len(sort_key(a)),
    "text": str,
    "concat": operator.add,
    "ids": lambda: (),
    "add": lambda numbers, a: tuple(sorted([*numbers, a])),
    "has": lambda numbers, a: a in numbers,
    "min": lambda a, b: min(a, b, key=sort_key),
    "max": lambda a, b: max(a, b, key=sort_key),
}


def value_of(node, scope):
    """The value of an expression. The scope has a value for each name, as `v.age` or `matched`."""
    if node.name == "constant":
        return node.value
    if node.name == "name":
        return scope[node.value]
    if node.name == "if":
        condition, first, second = node.operands
        return value_of(first if value_of(condition, scope) else second, scope)
    if node.name in ("and", "or"):
        left, right = node.operands
        decided = value_of(left, scope) == (node.name == "or")
        return node.name == "or" if decided else value_of(right, scope)
    return result_of(node, [value_of(operand, scope) for operand in node.operands])


def result_of(node, values):
    """The result of an operation on the values of its operands."""
    if node.name in COMPARISONS:
        return COMPARISONS[node.name](*map(sort_key, values))
    if node.name in ("/", "%") and values[1] == 0:
        raise Fault(node.number, "divide by zero")
    result = OPERATIONS[node.name](*values)
    if type(result) is int and not LEAST <= result <= GREATEST:
        raise Fault(node.number, "overflow")
    if isinstance(result, str) and len(result.encode()) > MOST_TEXT_BYTES:
        raise Fault(node.number, "text too long")
    return result


def new_rows(ids, expressions, scope_of):
    """A row of the values of the expressions for each identifier, the least one first."""
    rows = {}
    for vertex in sorted(ids):
        scope = scope_of(vertex)
        try:
            rows[vertex] = tuple(value_of(expression, scope) for expression in expressions)
        except Fault as fault:
            fault.vertex = vertex
            raise
    return rows


def completed(table, edges, default):
    """The graph of these vertices and edges, with the default row for each other end."""
    ends = {end for edge in edges for end in edge[:2]}
    return {**dict.fromkeys(ends, default), **table}, edges


def cell(value):
    """A value in a data file and in the output."""
    if isinstance(value, bool):
        return "true" if value else "false"
    return " ".join(map(str, value)) if isinstance(value, tuple) else str(value)


def line(fields):
    """A line of CSV. A field that needs quotes has them."""
    return ",".join(map(field, fields)) + "\n"


def field(text):
    return '"' + text.replace('"', '""') + '"' if set(text) & set(',"\r\n') else text


def text_of_table(columns, table):
    rows = [line(map(cell, (vertex, *table[vertex]))) for vertex in sorted(table)]
    return line(["id", *columns]) + "".join(rows)


def text_of_edges(columns, edges):
    in_order = sorted(edges, key=lambda edge: (edge[0], edge[1], row_key(edge[2])))
    rows = [line(map(cell, (source, destination, *row))) for source, destination, row in in_order]
    return line(["src", "dst", *columns]) + "".join(rows)


class Statement:
    """Its text, the statements that it names, and what it makes of their values."""

    def __init__(self, text, named, make, is_action=False):
        self.text, self.named, self.make, self.is_action = text, named, make, is_action
        self.needed = {self}.union(*(other.needed for other in named))


def meaning(statements):
    """The status, the output and the line of errors of a run."""
    values, output = {}, ""
    for action in (statement for statement in statements if statement.is_action):
        for number, statement in enumerate(statements, 1):
            if statement in action.needed and statement not in values:
                named = [values[other] for other in statement.named]
                try:
                    values[statement] = statement.make(*named)
                except Fault as fault:
                    return 1, output, f"fault: statement {number}, {fault}\n"
        output += values[action]
    return 0, output, ""
