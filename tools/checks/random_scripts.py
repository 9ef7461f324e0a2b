"""Runs random scripts, and compares what they print with what meaning.py says that they mean.

Each script is run as it is, and once more in random partitions. It has the statements that run,
over small files of a few identifiers, the extreme ones among them, so that ends repeat, rows tie
and expressions fault. A number names a script, as long as this file stays as it is: `tools/check`
tries the first 300, and `python3 -m checks.random_scripts 300 10000` in tools/ the next 9,700.
"""

import random
import sys
import tempfile
from pathlib import Path

from checks.meaning import COMPARISONS, GREATEST, LEAST, Node, Statement, cell, completed, line
from checks.meaning import meaning, new_rows, number_nodes, row_key, text_of_edges, text_of_table
from checks.report import finish, judge, output_of, run

IDS = [LEAST, -3, -1, 0, 1, 2, 3, 4, 5, 7, 11, 100, 101, GREATEST]
KINDS = ["int", "text", "bool", "ids"]
CUTS = ["1d", "2d", "random", "canonical", "rows"]


def quoted(text):
    escapes = {"\\": "\\\\", '"': '\\"', "\n": "\\n", "\t": "\\t", "\r": "\\r"}
    return '"' + "".join(escapes.get(letter, letter) for letter in text) + '"'


def constant_text(value):
    if isinstance(value, str):
        return quoted(value)
    return "ids()" if isinstance(value, tuple) else cell(value)


def listed(texts):
    return "(" + ", ".join(texts) + ")"


def expression_text(node):
    """An expression with all its parentheses."""
    operands = [expression_text(operand) for operand in node.operands]
    if node.name == "constant":
        return constant_text(node.value)
    if node.name == "name":
        return node.value
    if node.name in ("negate", "not"):
        return f"({'-' if node.name == 'negate' else 'not '}{operands[0]})"
    if node.name.isalpha() and node.name not in ("and", "or"):
        return node.name + listed(operands)
    return f"({operands[0]} {node.name} {operands[1]})"


def declared(columns):
    return listed(f"{name}: {kind}" for name, kind in columns)


def names_of(side, columns, *more):
    """The names of a side's columns, and others, with their kinds."""
    return [(f"{side}.{name}", kind) for name, kind in columns] + list(more)


def scope_of_row(side, columns, row):
    return {f"{side}.{name}": value for (name, _), value in zip(columns, row)}


def mapped(table, columns, expressions):
    def scope_of(vertex):
        return {"v.id": vertex, **scope_of_row("v", columns, table[vertex])}

    return new_rows(table, expressions, scope_of)


class Maker:
    """Makes one script and its files. `tables`, `edges` and `graphs` have what a later statement
    may name: the name, the columns with their kinds (of a graph also those of its edges), and the
    statement that makes it."""

    def __init__(self, number, folder):
        self.random = random.Random(number)
        self.pick = self.random.choice
        self.folder = folder
        self.statements, self.tables, self.edges, self.graphs = [], [], [], []
        self.load_vertices()
        self.load_edges()
        makers = [self.load_vertices, self.load_edges, self.load_edge_list, self.join_graph]
        makers += [self.graph_of_edges, self.partition] + 2 * [self.map_vertices, self.filter_rows]
        makers += [self.map_values, self.minus, self.diff, self.inner_join, self.left_join]
        makers += 4 * [self.act]
        for _ in range(self.pick([5, 10, 20, 30])):
            self.pick(makers)()
        self.act()
        self.act()

    # ---- values and expressions

    def number(self):
        if self.random.random() < 0.1:
            return self.pick([self.random.randrange(LEAST, GREATEST), LEAST, GREATEST])
        return self.random.randrange(-9, 30)

    def text(self):
        if self.random.random() < 0.05:
            return "y" * self.pick([500, 600, 1024])
        letters = ["a", "b", "x", "1", " ", ",", '"', "\n", "\r", "é"]
        return "".join(self.random.choices(letters, k=self.pick([0, 1, 2, 3, 6])))

    def value(self, kind):
        if kind == "int":
            return self.number()
        if kind == "text":
            return self.text()
        if kind == "bool":
            return self.random.random() < 0.5
        return tuple(sorted(self.number() for _ in range(self.pick([0, 1, 2, 4]))))

    def constant(self, kind):
        """A value that a script can spell: no list but the empty one, and not the least number."""
        if kind == "ids":
            return ()
        value = self.value(kind)
        return max(value, -GREATEST) if kind == "int" else value

    def leaf(self, kind, names):
        fitting = [name for name, of_kind in names if of_kind == kind]
        if fitting and self.random.random() < 0.8:
            return Node("name", value=self.pick(fitting))
        if kind == "ids":
            return Node("ids")
        value = self.constant(kind)
        return Node("constant", value=abs(value) if kind == "int" else value)

    def expression(self, kind, names, depth):
        if depth == 0 or self.random.random() < 0.1:
            return self.leaf(kind, names)
        any_kind = self.pick(KINDS)
        forms = [("if", "bool", kind, kind), ("min", kind, kind), ("max", kind, kind)]
        forms += 2 * {
            "int": [(name, "int", "int") for name in "+-*/%"]
            + [("negate", "int"), ("abs", "int"), ("len", "text"), ("len", "ids")],
            "text": [("concat", "text", "text"), ("text", "int")],
            "bool": [(name, any_kind, any_kind) for name in COMPARISONS]
            + [(name, "bool", "bool") for name in ("and", "or")]
            + [("not", "bool"), ("has", "ids", "int")],
            "ids": [("add", "ids", "int")],
        }[kind]
        name, *kinds = self.pick(forms)
        return Node(name, *(self.expression(operand, names, depth - 1) for operand in kinds))

    def columns(self):
        return [(f"c{i}", self.pick(KINDS)) for i in range(self.random.randrange(5))]

    def row(self, columns):
        return tuple(self.value(kind) for _, kind in columns)

    def default(self, columns):
        return tuple(self.constant(kind) for _, kind in columns)

    def sets(self, names):
        """New columns, with the expressions of their values and the text of both."""
        columns = self.columns()
        expressions = [self.expression(kind, names, self.pick([1, 2, 3])) for _, kind in columns]
        number_nodes(expressions)
        texts = [f"{name}: {expression_text(e)}" for (name, _), e in zip(columns, expressions)]
        return columns, expressions, listed(texts)

    # ---- statements

    def add(self, text, named, make, is_action=False):
        statement = Statement(text, named, make, is_action)
        self.statements.append(statement)
        return statement

    def new_name(self):
        return f"n{len(self.statements) + 1}"

    def write(self, lines):
        file = self.folder / f"f{len(self.statements) + 1}.txt"
        file.write_bytes("".join(lines).encode())
        return quoted(file.name)

    def load_vertices(self):
        columns, name = self.columns(), self.new_name()
        count = self.pick([0, 8, 20, 40])
        rows = [(self.pick(IDS), self.row(columns)) for _ in range(count)]
        head = line(["id", *(column for column, _ in columns)])
        file = self.write([head, *(line(map(cell, (vertex, *row))) for vertex, row in rows)])
        table = dict(reversed(rows))
        text = f"vertices {name} from {file} {declared(columns)}"
        self.tables.append((name, columns, self.add(text, [], lambda: table)))

    def load_edges(self):
        columns, name = self.columns(), self.new_name()
        count = self.pick([0, 8, 30])
        edges = [(self.pick(IDS), self.pick(IDS), self.row(columns)) for _ in range(count)]
        head = line(["src", "dst", *(column for column, _ in columns)])
        lines = [line(map(cell, (source, to, *row))) for source, to, row in edges]
        file = self.write([head, *lines])
        text = f"edges {name} from {file} {declared(columns)}"
        self.edges.append((name, columns, self.add(text, [], lambda: edges)))

    def load_edge_list(self):
        name, is_oriented = self.new_name(), self.random.random() < 0.5
        ends = [(self.pick(IDS), self.pick(IDS)) for _ in range(self.pick([0, 2, 9]))]
        forms = ["{} {}\n", "\t{}\t{} more\n", "# {} {}\n\n{} {}\r\n"]
        file = self.write(self.pick(forms).format(*pair, *pair) for pair in ends)
        edges = [(*(sorted(pair) if is_oriented else pair), (1,)) for pair in ends]
        text = f"edgelist {name} from {file}{' oriented' if is_oriented else ''}"
        self.edges.append((name, [("value", "int")], self.add(text, [], lambda: edges)))

    def join_graph(self):
        name = self.new_name()
        table, columns, of_table = self.pick(self.tables)
        edges, edge_columns, of_edges = self.pick(self.edges)
        default = self.default(columns)
        text = f"graph {name} = {table}, {edges} default {listed(map(constant_text, default))}"
        statement = self.add(text, [of_table, of_edges], lambda t, e: completed(t, e, default))
        self.graphs.append((name, columns, edge_columns, statement))

    def graph_of_edges(self):
        name, columns = self.new_name(), self.columns()
        edges, edge_columns, of_edges = self.pick(self.edges)
        row = self.default(columns)
        values = [f"{column}: {constant_text(value)}" for (column, _), value in zip(columns, row)]
        text = f"fromedges {name} = {edges} {listed(values)}"
        statement = self.add(text, [of_edges], lambda e: completed({}, e, row))
        self.graphs.append((name, columns, edge_columns, statement))

    def partition(self):
        if self.graphs:
            name = self.new_name()
            graph, columns, edge_columns, of_graph = self.pick(self.graphs)
            cut = self.pick(["oned", "twod", "random", "canonical"])
            statement = self.add(f"partition {name} = {graph} by {cut}", [of_graph], lambda g: g)
            self.graphs.append((name, columns, edge_columns, statement))

    def map_vertices(self):
        if self.graphs:
            name = self.new_name()
            graph, columns, edge_columns, of_graph = self.pick(self.graphs)
            new_columns, sets, text = self.sets(names_of("v", columns, ("v.id", "int")))
            text = f"mapvertices {name} = {graph} {text}"
            statement = self.add(text, [of_graph], lambda g: (mapped(g[0], columns, sets), g[1]))
            self.graphs.append((name, new_columns, edge_columns, statement))

    def filter_rows(self):
        name = self.new_name()
        table, columns, of_table = self.pick(self.tables)
        test = self.expression("bool", names_of("v", columns, ("v.id", "int")), 3)
        number_nodes([test])
        text = f"filter {name} = {table} where {expression_text(test)}"

        def make(rows):
            holds = mapped(rows, columns, [test])
            return {vertex: row for vertex, row in rows.items() if holds[vertex][0]}

        self.tables.append((name, columns, self.add(text, [of_table], make)))

    def map_values(self):
        name = self.new_name()
        table, columns, of_table = self.pick(self.tables)
        new_columns, sets, text = self.sets(names_of("v", columns, ("v.id", "int")))
        text = f"mapvalues {name} = {table} {text}"
        statement = self.add(text, [of_table], lambda rows: mapped(rows, columns, sets))
        self.tables.append((name, new_columns, statement))

    def minus(self):
        name = self.new_name()
        (table, columns, first), (other, _, second) = self.two_tables()

        def make(rows, others):
            return {vertex: row for vertex, row in rows.items() if vertex not in others}

        statement = self.add(f"minus {name} = {table}, {other}", [first, second], make)
        self.tables.append((name, columns, statement))

    def diff(self):
        name = self.new_name()
        table, columns, first = self.pick(self.tables)
        kinds = [kind for _, kind in columns]
        alike = [each for each in self.tables if [kind for _, kind in each[1]] == kinds]
        other, _, second = self.pick(alike)

        def make(rows, others):
            both = rows.keys() & others.keys()
            return {v: others[v] for v in both if row_key(rows[v]) != row_key(others[v])}

        statement = self.add(f"diff {name} = {table}, {other}", [first, second], make)
        self.tables.append((name, columns, statement))

    def inner_join(self):
        self.join("innerjoin", lambda rows, others: rows.keys() & others.keys(), None)

    def left_join(self):
        self.join("leftjoin", lambda rows, others: rows, ("matched", "bool"))

    def join(self, keyword, ids, matched):
        name = self.new_name()
        (table, columns, first), (other, other_columns, second) = self.two_tables()
        names = names_of("v", columns, ("v.id", "int")) + names_of("o", other_columns)
        new_columns, sets, text = self.sets(names + ([matched] if matched else []))
        default = self.default(other_columns)
        given = f"default {listed(map(constant_text, default))} " if matched else ""
        text = f"{keyword} {name} = {table}, {other} {given}{text}"

        def make(rows, others):
            def scope_of(v):
                sides = scope_of_row("v", columns, rows[v])
                sides |= scope_of_row("o", other_columns, others.get(v, default))
                return {"v.id": v, "matched": v in others, **sides}

            return new_rows(ids(rows, others), sets, scope_of)

        self.tables.append((name, new_columns, self.add(text, [first, second], make)))

    def two_tables(self):
        return self.pick(self.tables), self.pick(self.tables)

    def act(self):
        if self.graphs and self.random.random() < 0.5:
            graph, columns, edge_columns, made = self.pick(self.graphs)
            if self.random.random() < 0.5:
                self.act_on(f"vertices {graph}", columns, made, lambda g: g[0], text_of_table)
            else:
                self.act_on(f"edges {graph}", edge_columns, made, lambda g: g[1], text_of_edges)
        else:
            table, columns, made = self.pick(self.tables[-4:])
            self.act_on(f"table {table}", columns, made, lambda t: t, text_of_table)

    def act_on(self, named, columns, statement, part_of, text_of):
        names = [column for column, _ in columns]
        is_count = self.random.random() < 0.25

        def make(value):
            part = part_of(value)
            return f"count\n{len(part)}\n" if is_count else text_of(names, part)

        self.add(f"{'count' if is_count else 'print'} {named}", [statement], make, is_action=True)


def options_of(maker):
    parts, workers = maker.pick([1, 2, 3, 7, 64]), maker.pick([1, 2, 5, 64])
    return ["--parts", str(parts), "--cut", maker.pick(CUTS), "--workers", str(workers)]


def difference(program, number):
    """How a run of this script differs from its meaning, if one does."""
    with tempfile.TemporaryDirectory() as folder:
        maker = Maker(number, Path(folder))
        script = "".join(f"{statement.text};\n" for statement in maker.statements)
        (Path(folder) / "s.gx").write_bytes(script.encode())
        status, output, errors = meaning(maker.statements)
        wanted = (status, output.encode(), errors.encode())
        for words in ([], options_of(maker)):
            ended = run([program, "run", "s.gx", *words], folder)
            got = (ended.returncode, ended.stdout, ended.stderr)
            if got != wanted:
                return f"with {words}: {got} for {wanted}, of\n{script}"
    return None


def check_random_scripts(first, past):
    program = output_of("tools/program")
    for number in range(first, past):
        judge(f"random script {number}", difference(program, number))


if __name__ == "__main__":
    check_random_scripts(int(sys.argv[1]), int(sys.argv[2]))
    finish()
