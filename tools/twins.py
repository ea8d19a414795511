#!/usr/bin/env python3
"""Lists pairs of functions or types of crates/*/src that look alike once names and numbers are left out.

    tools/twins.py [LEAST]      LEAST: how alike two have to be, 0 to 1; 0.9 if not given

A pair is a hint and no verdict: read both.
"""
import difflib
import glob
import re
import sys

KEYWORDS = set("as break const continue else enum fn for if impl in let loop match mut pub ref return self Self "
               "struct trait true false use where while Some None Ok Err Option Result".split())
TOKEN = re.compile(r"b?'(?:\\.|[^'\\])'|b?\"(?:\\.|[^\"\\])*\"|[A-Za-z_]\w*|\d\w*|[^\w\s]")
ITEM = re.compile(r"^\s*(?:pub(?:\([a-z]+\))? )?(?:const )?(fn|struct|enum) (\w+)", re.M)


def items(path):
    text = re.sub(r"//.*", "", open(path).read())
    for found in ITEM.finditer(text):
        start = text.find("{", text.find(")", found.end()) if found[1] == "fn" else found.end())
        # a function's clauses come in braces of their own, before its body
        while True:
            depth, at = 0, start
            while at < len(text):
                depth += {"{": 1, "}": -1}.get(text[at], 0)
                at += 1
                if depth == 0:
                    break
            clause = re.search(r"(requires|ensures)\*?(?: \w+)?\s*$", text[:start])
            if found[1] == "fn" and clause:
                start = text.find("{", at)
                continue
            break
        yield f"{path}: {found[1]} {found[2]}", shape(text[start:at])


def shape(body):
    out = []
    for token in TOKEN.findall(body):
        if re.match(r"\d|b?['\"]", token):
            out.append("0")
        elif re.match(r"\w", token) and token not in KEYWORDS:
            out.append("x")
        else:
            out.append(token)
    return out


def main():
    least = float(sys.argv[1]) if len(sys.argv) > 1 else 0.9
    found = [i for p in sorted(glob.glob("crates/*/src/**/*.rt", recursive=True)) if "tests" not in p for i in items(p)]
    found = [i for i in found if len(i[1]) >= 8]
    pairs = 0
    for n, (one, a) in enumerate(found):
        for other, b in found[n + 1:]:
            alike = difflib.SequenceMatcher(None, a, b, autojunk=False)
            if alike.quick_ratio() >= least and alike.ratio() >= least:
                print(f"{alike.ratio():.2f}  {one}\n      {other}")
                pairs += 1
    print(f"{pairs} pairs of {len(found)}")


main()
