"""What is likely meant where gx refuses a script: the habits of other languages, and plain slips.

Each function takes what was refused, and returns a line for the reader or nothing. To add a
statement, add its line in SPELLINGS, its sides in SIDES if it has expressions, and what it makes in
`sort_of`.
"""

import difflib
import re

from script_check.reading import COMPARISONS, DEFAULT_SETS, LOADS, PRECEDENCES, SETS

SPELLINGS = {
    "vertices": 'vertices T from "FILE" (NAME: KIND, ..);',
    "edges": 'edges E from "FILE" (NAME: KIND, ..);',
    "edgelist": 'edgelist E from "FILE"; or edgelist E from "FILE" oriented;',
    "graph": "graph H = S, E default (CONSTANT, ..);",
    "fromedges": "fromedges H = E (NAME: CONSTANT, ..);",
    "reverse": "reverse H = G;",
    "mask": "mask H = G by K;",
    "subgraph": "subgraph H = G vertices TEST edges TEST; one test may be left out",
    "groupedges": "groupedges H = G (NAME: MERGE, ..);",
    "partition": "partition H = G by oned; or twod, random, canonical",
    "mapvertices": "mapvertices H = G (NAME: EXPRESSION, ..);",
    "mapedges": "mapedges H = G (NAME: EXPRESSION, ..);",
    "maptriplets": "maptriplets H = G (NAME: EXPRESSION, ..);",
    "joinvertices": "joinvertices H = G, S (NAME: EXPRESSION, ..);",
    "outerjoin": "outerjoin H = G, S default (CONSTANT, ..) (NAME: EXPRESSION, ..);",
    "aggregate": "aggregate T = G to dst (EXPRESSION, ..) merge (NAME: MERGE, ..);",
    "indegrees": "indegrees T = G;",
    "outdegrees": "outdegrees T = G;",
    "degrees": "degrees T = G;",
    "neighbours": "neighbours T = G in; or out, either",
    "pregel": "pregel H = G rounds NUMBER merge (NAME: MERGE, ..) initial (CONSTANT, ..) "
    "program (NAME: EXPRESSION, ..) to dst (EXPRESSION, ..);",
    "filter": "filter T = S where TEST;",
    "mapvalues": "mapvalues T = S (NAME: EXPRESSION, ..);",
    "minus": "minus T = S, U;",
    "diff": "diff T = S, U;",
    "innerjoin": "innerjoin T = S, U (NAME: EXPRESSION, ..);",
    "leftjoin": "leftjoin T = S, U default (CONSTANT, ..) (NAME: EXPRESSION, ..);",
    "print": "print table S; or print vertices G; print edges G; print triplets G;",
    "count": "count table S; or count vertices G; count edges G;",
}
SIDES = {
    **dict.fromkeys(["mapvertices", "filter", "mapvalues"], ["v"]),
    **dict.fromkeys(["joinvertices", "innerjoin", "outerjoin", "leftjoin"], ["v", "o"]),
    **dict.fromkeys(["mapedges", "maptriplets", "aggregate"], ["edge", "src", "dst"]),
    "subgraph": ["v in the test of vertices", "src", "dst", "edge in that of edges"],
    "pregel": ["v", "m in the program", "src", "dst", "edge in what is sent"],
}
FUNCTIONS = ["abs", "if", "min", "max", "len", "concat", "text", "ids", "add", "has"]
KINDS = {"string": "text", "str": "text", "varchar": "text", "char": "text", "integer": "int"}
KINDS |= {"long": "int", "bigint": "int", "boolean": "bool", "list": "ids", "array": "ids"}


def is_in_expression(words):
    """Whether the tokens of a statement, up to one that is refused, end in an expression."""
    keyword = words[0].text
    texts = [token.text for token in words[4:]]
    if keyword in ("filter", "subgraph", "aggregate", "pregel"):
        return any(text in texts for text in ("where", "vertices", "edges", "to", "program"))
    return keyword in SETS + DEFAULT_SETS and "(" in texts


def depth_of(words):
    """How many parentheses are open after these tokens."""
    return sum({"(": 1, ")": -1}.get(token.text, 0) for token in words)


def is_chained(words):
    """Whether a comparison stands before, in the same expression."""
    depth = 0
    for token in reversed(words):
        depth += {")": 1, "(": -1}.get(token.text, 0)
        if depth < 0 or depth == 0 and token.text in (",", ":", "and", "or", "where", "when"):
            return False
        if depth == 0 and token.text in COMPARISONS:
            return True
    return False


def slip_of_byte(script, offset, why):
    """What is likely meant at a byte that begins no token, or a token that is too long."""
    rest = script[offset:]
    if script[:2] in (b"\xff\xfe", b"\xfe\xff") or b"\0" in script:
        return "the script is not UTF-8, and may be UTF-16: save it as UTF-8"
    if why == "not UTF-8":
        return "save the script as UTF-8"
    if why == "text not closed":
        escape = re.match(rb'"(?:[^"\\\n\r]|\\["\\ntr])*\\', rest)
        return "write \\\\ for a backslash" if escape else 'close the text with " on its line'
    if why == "number too large":
        return "the largest number is 9223372036854775807"
    if why != "not a token":
        return None
    letter = rest.decode(errors="replace")[:1]
    meant = {
        "'": 'a text stands in double quotes, as "ann"',
        "!": "write `not`, or `!=` for unequal",
        "|": "write `or`",
        "&": "write `and`",
        "`": "a name stands without quotes",
        "{": "parts stand without braces, as in `to dst (1)`",
        "[": "a list stands in ( )",
        "_": "a name begins with a letter",
    }
    if letter in "“”„‘’«»":
        return 'a text stands in straight double quotes, as "ann"'
    return meant.get(letter, "names have letters of ASCII" if letter > "~" else None)


def slip_of_words(script, before, here):
    """What is likely meant where no script goes on: after the tokens `before`, at `here`."""
    text = here.text if here else ""
    pair = [token.text for token in (*before, here) if token][-2:]
    pairs = zip(before, [*before[1:], here])
    joined = [a.text + b.text for a, b in pairs if b and a.end == b.offset]
    marks = ("--", "//", "/*")
    begun = script[here.offset : here.offset + 2].decode(errors="replace") if here else ""
    if any(mark in joined for mark in marks) or not before and begun in marks:
        return "a comment begins with #"
    if not before and text == ";":
        return "no statement stands before this `;`"
    if not before:
        near = difflib.get_close_matches(text.lower(), SPELLINGS, 1, 0.75)
        found = f"no statement begins with `{text}`"
        return f"{found}; `{near[0]}` does" if near else found
    keyword = before[0].text
    if keyword not in SPELLINGS:
        return f"no statement begins with `{keyword}`"
    if here and text in SPELLINGS and before and b"\n" in script[before[-1].end : here.offset]:
        if keyword not in ("print", "count") or len(before) > 2:
            return "the statement before lacks its `;`"
    meant = slip_in_expression(before, here, joined) if is_in_expression(before) else None
    meant = meant or slip_in_list(keyword, before, here, pair)
    if meant:
        return meant
    if text in ("", ";") and depth_of(before) > 0:
        return "a `)` is missing"
    if not here and len(before) > 2:
        return "the statement lacks its `;`"
    return f"it is spelled {SPELLINGS[keyword]}"


def slip_in_list(keyword, before, here, pair):
    text = here.text if here else ""
    last = before[-1]
    if keyword in LOADS:
        if text == "=":
            return f"it is spelled {SPELLINGS[keyword]}"
        if last.text == ":":
            kind = KINDS.get(text.lower())
            return f"write `{kind}`" if kind else "the kinds are int, text, bool and ids"
        if last.is_word() and len(before) > 5 and text in (",", ")"):
            return f"a column needs its kind, as `{last.text}: int`"
    if keyword in ("print", "count") and len(before) == 1 and here:
        return "write `table`, `vertices` or `edges` before the name"
    if keyword in ("aggregate", "pregel") and text == "send":
        return "write `to dst (..)` without `send`"
    if keyword in SETS + DEFAULT_SETS and text == "as":
        return "the name of a new column stands before it, as `age: v.age`"
    if keyword in SETS + DEFAULT_SETS and depth_of(before) == 1 and last.is_word():
        if before[-2].text in ("(", ",") and text == "=":
            return f"write `:` after the name of a new column, as `{last.text}: v.age`"
        if before[-2].text in ("(", ","):
            return "each new column needs its name, as `age: v.age`"
    return None


def slip_in_expression(before, here, joined):
    text, last = here.text if here else "", before[-1]
    side = SIDES[before[0].text][0].split()[0]
    small = next((it for it in (here, last) if it and it.text in ("AND", "OR", "NOT")), None)
    if small:
        return f"write `{small.text.lower()}`"
    if "<>" in joined:
        return "write `!=` for unequal"
    if text == "=" and not (depth_of(before) == 1 and before[-2].text in ("(", ",")):
        return "write `==` for equal"
    absent = ("in", "between", "like", "is")
    word = next((it for it in (here, last) if it and it.text.lower() in absent), None)
    if word:
        return f"there is no `{word.text}`: write comparisons, with `and` or `or` between them"
    if text in COMPARISONS and is_chained(before):
        return "comparisons do not chain: write `a < b and b < c`"
    if last.what == "number" and here and here.offset == last.end and here.text[0] not in ";)":
        return "there are whole numbers alone: count in tenths or hundredths"
    begun = before[-2].text if len(before) > 1 else ""
    is_operand = begun in PRECEDENCES or begun in ("(", ",", ":", "where", "when", "not")
    is_operand = is_operand or begun in ("vertices", "edges")
    names_column = before[0].text in SETS + DEFAULT_SETS and begun in ("(", ",") or text == ":"
    is_value = last.text in ("true", "false", "matched")
    if last.is_word() and is_operand and not names_column and not is_value and text != ".":
        quoted = f', and a text its quotes, as "{last.text}"' if begun in COMPARISONS else ""
        return f"a column needs its side, as `{side}.{last.text}`{quoted}"
    if last.text == "." and here and here.what != "word":
        return "after the dot stands the name of a column"
    return None


def sort_of(words):
    """What a statement makes, in the words of the pages."""
    keyword = words[0].text
    if keyword in ("edges", "edgelist"):
        return "edges"
    tables = ("vertices", "filter", "mapvalues", "minus", "diff", "innerjoin", "leftjoin")
    if keyword in (*tables, "aggregate", "indegrees", "outdegrees", "degrees", "neighbours"):
        return "a table"
    return "a graph"


def used_names(words):
    """The tokens that name other statements."""
    keyword = words[0].text
    if keyword in LOADS:
        return []
    if keyword in ("print", "count"):
        return words[2:3]
    if keyword == "mask":
        return words[3:6:2]
    return words[3:6:2] if len(words) > 5 and words[4].text == "," else words[3:4]


def slip_of_statement(statements, number, why):
    """Where a refused statement is wrong, if it is not one of its expressions, and what helps."""
    words = statements[number - 1]
    made = {}
    for other in statements[: number - 1]:
        if other[0].text not in ("print", "count"):
            made[other[1].text] = sort_of(other)
    if why == "name taken":
        return words[1], f"an earlier statement makes `{words[1].text}`: take another name"
    if why == "name unknown":
        unknown = next((it for it in used_names(words) if it.text not in made), words[0])
        near = difflib.get_close_matches(unknown.text, made, 1)
        return unknown, f"`{near[0]}` is known" if near else "no earlier statement makes this name"
    if why == "wrong sort":
        said = [f"`{it.text}` is {made[it.text]}" for it in used_names(words) if it.text in made]
        return words[0], ", ".join(said) + f"; it is spelled {SPELLINGS[words[0].text]}"
    if why == "column name not allowed":
        pairs = zip(words[4:], words[5:])
        wrong = (a for a, b in pairs if a.text in ("id", "src", "dst") and b.text == ":")
        return next(wrong, words[0]), "id, src and dst are there without it"
    if why == "not built":
        return words[0], f"gx knows `{words[0].text}`, and cannot run it yet"
    helps = {
        "column twice": "each column of a list has a name of its own",
        "columns differ": "one entry for each column, in their order",
        "constant of wrong kind": 'constants are 7 for int, "ann" for text, true for bool, ids()',
        "merge does not take this kind": "sum takes int, all and any bool, bag int or ids",
    }
    return words[0], helps.get(why)


def slip_of_expression(statements, number, token, why):
    """What helps with an expression, whose operation or side is this token."""
    words = statements[number - 1]
    keyword = words[0].text
    if why == "side not readable here":
        return f"the sides of `{keyword}` are {', '.join(SIDES.get(keyword, []))}"
    if why == "function unknown":
        near = difflib.get_close_matches(token.text.lower(), FUNCTIONS, 1)
        return f"`{near[0]}` is one" if near else f"the functions are {', '.join(FUNCTIONS)}"
    if why == "column unknown":
        column = words[words.index(token) + 2].text
        earlier = [pair for it in statements[: number - 1] for pair in zip(it, it[1:])]
        known = [name.text for name, colon in earlier if colon.text == ":"]
        near = difflib.get_close_matches(column, [*known, "id"], 1)
        return f"`{near[0]}` is a column" if near else f"no column of that side is named `{column}`"
    if why == "wrong kind" and token.text in ("and", "or", "not"):
        return f"`{token.text}` takes bools: write a whole comparison on each side"
    if why == "wrong kind":
        return "both operands are of one kind: `text(v.n)` makes a text of an int"
    return None
