#!/usr/bin/env python3
"""Adds to each random tree of crates/trials/data/trees.json what searches by numbers come to, and writes the case of a chain of 1,000 roles.

The answers are worked out here by the definition: an entry is reached where its parent is, its path set matches the name, and no earlier reached
entry has its name; a path set is compared where the parent is reached and no earlier reached entry has the entry's name, up to the end of
the search. That is the entry whose document lists the name, or the end of the subtree of a terminating role that is reached.
"""
import json
import pathlib
import re

import case_files

FILE = pathlib.Path(__file__).resolve().parent.parent / "crates/trials/data/trees.json"
LAST = '{"spec_version":"1","version":1,"expires":"2030-01-01T00:00:00Z","targets":{"x":{"length":7,"hashes":{"sha256":"00"}}}}'


def matches(pattern, name):
    text = "".join({"*": ".*", "?": "."}.get(it, it.replace("[!", "[^") if it[0] == "[" else re.escape(it)) for it in re.findall(r"\[[^]]*\]|.", pattern))
    return re.fullmatch(text, name, re.S) is not None


def tree_of(documents):
    """The tree of the documents of a case: for each role that a `1` marks, the last document before it that is not used yet."""
    made = []
    for marks, text in (it.split(" ", 1) for it in documents):
        document = json.loads(text)
        roles = (document.get("delegations") or {}).get("roles", [])
        made.append((document["targets"], [(role, made.pop() if mark == "1" and made else None) for role, mark in zip(roles, marks + "-" * len(roles))]))
    return made[-1]


def entries(document, parent=None):
    """The entries below a document in preorder, each with the place of its parent and the place where its subtree ends."""
    found = []

    def below(document, parent):
        for role, held in document[1]:
            at = len(found)
            found.append(None)
            if held:
                below(held, at)
            found[at] = (role, held, parent, len(found))

    below(document, None)
    return found


def search(document, name, permissive):
    if name in document[0]:
        return "0/0"
    reached, names, tests = set(), set(), 0
    found = entries(document)
    end = len(found)
    for at, (role, held, parent, stop) in enumerate(found):
        if at >= end:
            break
        if (parent is not None and parent not in reached) or role["name"] in names:
            continue
        tests += 1
        if not any(matches(it, name) for it in role["paths"]):
            continue
        reached.add(at)
        names.add(role["name"])
        if held and name in held[0]:
            return f"{at + 1}/{tests}"
        if role["terminating"] and not permissive:
            end = min(end, stop)
    return f"-/{tests}"


def main():
    cases = [it for it in json.loads(FILE.read_text()) if it["call"] != "Nodes::search"]
    for case in cases:
        ends_search = case["name"] == "a terminating role ends the search"
        if case["name"].startswith("random tree") or ends_search or case["name"] == "a name is reached once":
            answers = case["answer"].split("; ")[: len([it for it in case["steps"] if not it.startswith("search ")])]
            case["steps"] = [it for it in case["steps"] if not it.startswith("search ")]
            names = [it.split(" ", 1)[1] for it in case["steps"] if it.startswith("find ")]
            tree = tree_of(case["documents"])
            case["steps"] += [f"search {it}" for it in names]
            case["answer"] = "; ".join(answers + [f"{search(tree, it, False)} {search(tree, it, True)}" for it in names])
    cases.append({"call": "Nodes::search", "name": "a chain of 1,000 roles", "document": LAST, "times": 1000, "answer": "1000/1000 1000/1000"})
    case_files.write(FILE, cases, "hand")


if __name__ == "__main__":
    main()
