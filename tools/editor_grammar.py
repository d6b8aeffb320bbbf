#!/usr/bin/env python3
"""Writes the grammar file by which editors colour scripts, from the lists of tokens in docs/LANGUAGE.md.

    tools/editor_grammar.py

It writes editors/hera.tmLanguage.json, in the form of TextMate grammars, which most editors read.
"""

import json
import os
import re

TOP = os.path.dirname(os.path.dirname(os.path.abspath(__file__)))
TYPES = {"int", "bool", "text", "delta", "rel", "tuple"}
DECLARATIONS = {"relation", "func", "proc", "main"}
CONSTANTS = {"true", "false", "fail"}
STATEMENTS = {"if", "else", "while", "foreach", "in", "print", "apply", "commit", "rollback", "assert", "return"}


def listed(page, what):
    """The tokens of a list in the page, one blank between them."""
    return re.search(rf"^The {what}: `(.*)`\.$", page, re.MULTILINE)[1].split(" ")


def words(scope, some):
    return {"name": scope, "match": rf"\b({'|'.join(sorted(some))})\b"}


def grammar(keywords, punctuation):
    queries = set(keywords) - TYPES - DECLARATIONS - CONSTANTS - STATEMENTS
    signs = sorted((it for it in punctuation if it not in "()[]{},;:."), key=len, reverse=True)
    return {
        "name": "Heraclitus",
        "scopeName": "source.hera",
        "fileTypes": ["hera"],
        "patterns": [
            {"name": "comment.line.double-slash.hera", "match": "//.*$"},
            {"name": "comment.block.hera", "begin": r"/\*", "end": r"\*/"},
            {
                "name": "string.quoted.double.hera",
                "begin": '"',
                "end": '"|$',
                "patterns": [{"name": "constant.character.escape.hera", "match": r'\\["\\nt]'}],
            },
            {"name": "constant.numeric.hera", "match": r"\b[0-9]+\b"},
            words("storage.type.hera", TYPES),
            words("keyword.declaration.hera", DECLARATIONS),
            words("constant.language.hera", CONSTANTS),
            words("keyword.control.hera", STATEMENTS),
            words("support.function.hera", queries),
            {"name": "entity.name.function.hera", "match": r"\b[^\W\d]\w*(?=\s*\()"},
            {"name": "keyword.operator.hera", "match": "|".join(map(re.escape, signs))},
        ],
    }


def main():
    with open(os.path.join(TOP, "docs", "LANGUAGE.md")) as file:
        page = file.read()
    made = grammar(listed(page, "keywords"), listed(page, "punctuation"))
    with open(os.path.join(TOP, "editors", "hera.tmLanguage.json"), "w") as file:
        json.dump(made, file, indent=2)
        file.write("\n")


if __name__ == "__main__":
    main()
