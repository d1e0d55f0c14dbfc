"""Files of cases: a list of objects, one case a line, each with the source of the answer that is wanted.

A source is `original` (the Rust crate tough 0.24.0, run on the input), the RFC whose vector or rule it is, `cryptography` (the Python library, which
made the signatures) or `hand` (worked out by hand, or by the script that writes the file, from the rule that the case's name tells).
"""
import json


def line_of(case, source):
    """The case as a line, with this source where it names none."""
    first = {it: case[it] for it in ("call", "name") if it in case}
    return json.dumps({**first, "source": case.get("source", source), **case}, ensure_ascii=False)


def write(path, cases, source):
    """Writes a file of cases."""
    with open(path, "w", encoding="utf-8") as file:
        file.write("[\n" + ",\n".join(line_of(it, source) for it in cases) + "\n]\n")
