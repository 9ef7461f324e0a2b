"""Tries the files for editors: each token of the examples is given the scope that it should have.

The scripts are the examples, and the blocks ```gx of language.md, which have the statements that do
not run yet. What a token is comes from the tokens and the statements of script_check, and not from
the patterns of the editors. The TextMate grammar has patterns of one line alone, which Python's
expressions can try; the syntax file of Vim is tried by Vim, if there is one.
"""

import json
import os
import re
import shutil
import tempfile
from pathlib import Path

from checks.pages import blocks_of
from checks.report import TOP, judge, note, run
from script_check.reading import COMPARISONS, statements_of, tokens_of
from script_check.slips import FUNCTIONS

GRAMMAR = TOP / "share/editors/gx.tmLanguage.json"
VIM = TOP / "share/editors/vim/syntax/gx.vim"

# What a token is, with its scope in TextMate and its group in Vim.
SCOPES = {
    "statement": ("keyword.control", "gxStatement"),
    "member": ("variable.other.member", "gxMember"),
    "side": ("variable.language", "gxSide"),
    "column": ("entity.name.tag", "gxColumn"),
    "kind": ("storage.type", "gxKind"),
    "function": ("support.function", "gxFunction"),
    "word operator": ("keyword.operator.word", "gxWordOperator"),
    "constant": ("constant.language", "gxConstant"),
    "number": ("constant.numeric", "gxNumber"),
    "text": ("string.quoted", "gxText"),
    "operator": ("keyword.operator", "gxOperator"),
    "punctuation": ("punctuation", "gxPunctuation"),
    "clause": ("keyword.other", "gxOther"),
    "name": ("variable.other", "gxName"),
}
KINDS = ("int", "text", "bool", "ids", "sum", "count", "min", "max", "all", "any", "bag")
CLAUSES = ("from", "default", "where", "by", "oriented", "to", "when", "merge", "rounds", "initial")


def scripts():
    files = sorted(TOP.glob("examples/*/*.gx"))
    return [file.read_text() for file in files] + blocks_of((TOP / "docs/language.md").read_text())


def use_of(words, position):
    """What the token at a position of a statement is."""
    token = words[position]
    before = words[position - 1].text if position else ""
    after = words[position + 1].text if position + 1 < len(words) else ""
    if token.what == "symbol":
        is_operator = token.text in (*COMPARISONS, *"=+-*/%")
        return "operator" if is_operator else "punctuation"
    if token.what != "word":
        return token.what
    if position == 0 or position == 1 and before in ("print", "count"):
        return "statement"
    for use, is_so in (
        ("member", before == "."),
        ("side", after == "."),
        ("column", after == ":"),
        ("kind", before == ":" and after in (",", ")") and token.text in KINDS),
        ("function", after == "(" and before != "=" and token.text in FUNCTIONS),
        ("word operator", token.text in ("and", "or", "not")),
        ("constant", token.text in ("true", "false", "matched")),
        ("clause", position > 1 and token.text in CLAUSES),
    ):
        if is_so:
            return use
    return "name"


def uses_of(script):
    """The offset, the end and the use of each token."""
    for words in statements_of(tokens_of(script.encode())):
        for position, token in enumerate(words):
            yield token, use_of(words, position)


def scopes_of(patterns, text):
    """The scope of each letter of a text, line by line, as an editor finds it."""
    found = []
    for line in text.split("\n"):
        scopes, start = [""] * (len(line) + 1), 0
        while start < len(line):
            tried = [(pattern.search(line, start), scope) for pattern, scope in patterns]
            tried = [(match, scope) for match, scope in tried if match and match.end() > start]
            if not tried:
                break
            match, scope = min(tried, key=lambda it: it[0].start())
            parts = scope if isinstance(scope, dict) else {"0": {"name": scope}}
            for group, part in parts.items():
                begin, end = match.span(int(group))
                scopes[begin:end] = [part["name"]] * (end - begin)
            start = max(match.end(), start + 1)
        found += scopes
    return found


def problem_of(script, scopes, column):
    """The first token whose letters have another scope than they should, if any."""
    for token, use in uses_of(script):
        wanted = SCOPES[use][column]
        # A name may be a word of the language too, as it stands anywhere.
        given = set(scopes[token.offset : token.end])
        allowed = (wanted, SCOPES["clause"][column]) if use == "name" else (wanted,)
        if not all(it.startswith(allowed) for it in given):
            return f"`{token.text}`, a {use}, has {given}, in `{script[:40]}`"
    return None


def check_textmate():
    grammar = json.loads(GRAMMAR.read_text())["patterns"]
    patterns = [(re.compile(it["match"]), it.get("name") or it["captures"]) for it in grammar]
    problems = [problem_of(text, scopes_of(patterns, text), 0) for text in scripts()]
    judge("gx.tmLanguage.json, the examples", next(filter(None, problems), None))
    others = scopes_of(patterns, '# a "comment"\nvertices a from "open')
    is_right = others[0].startswith("comment") and others[10].startswith("comment")
    is_right = is_right and others[-2].startswith("invalid")
    judge("gx.tmLanguage.json, a comment and an open text", None if is_right else f"{others}")


DUMP = """set encoding=utf-8
syntax on
for file in glob("*.gx", 0, 1)
  execute "edit " . file
  unlet! b:current_syntax
  execute "source " . $SYNTAX
  let groups = []
  for number in range(1, line("$"))
    let line = getline(number)
    for column in range(1, strlen(line) + 1)
      call add(groups, synIDattr(synID(number, column, 1), "name"))
    endfor
  endfor
  call writefile(groups, file . ".groups")
endfor
qall!
"""


def check_vim():
    if not shutil.which("vim"):
        return note("the syntax file of Vim is not tried, as there is no vim")
    with tempfile.TemporaryDirectory() as name:
        here = Path(name)
        (here / "dump.vim").write_text(DUMP)
        for number, text in enumerate(scripts()):
            (here / f"{number}.gx").write_text(text)
        words = ["vim", "-Nu", "NONE", "-i", "NONE", "-n", "-es", "-S", "dump.vim"]
        run(words, here, env={**os.environ, "SYNTAX": VIM})
        problems = []
        for number, text in enumerate(scripts()):
            dumped = here / f"{number}.gx.groups"
            if not dumped.exists():
                return note("the syntax file of Vim is not tried, as this vim has no syntax")
            problems.append(problem_of(text, dumped.read_text().split("\n"), 1))
        judge("gx.vim, the examples", next(filter(None, problems), None))


def check_editors():
    check_textmate()
    check_vim()
