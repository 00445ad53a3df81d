#!/usr/bin/env python3
"""tests/sarif.py VERSION: reads what `oscheck --format=sarif` writes, and shows it as lines.

What is read has to be one line of JSON in UTF-8 with what SARIF 2.1.0 asks for and what VS Code's and GitHub's readers need; else that is told, and the
status is 1. Each result is shown as `--format=gcc` writes it, and each notification as it stands."""
import json
import re
import sys
from urllib.parse import unquote

# A reference of RFC 3986 without query and fragment, as far as names of files go.
REFERENCE = re.compile(r"(?:file://)?(?:[A-Za-z0-9._~/-]|%[0-9A-F]{2})+")


def has(value, kinds, what):
    """The values of an object by the keys that it has to have, each of its type."""
    if not isinstance(value, dict) or set(value) != set(kinds):
        sys.exit(f"{what}: other members than {sorted(kinds)}: {value}")
    for key, kind in kinds.items():
        if type(value[key]) is not kind:
            sys.exit(f"{what}: {key} is no {kind.__name__}: {value[key]!r}")
    return [value[key] for key in kinds]


def text_of(value, what):
    """The text of a message."""
    (text,) = has(value, {"text": str}, what)
    if not text:
        sys.exit(f"{what}: no text")
    return text


def rules_of(rules):
    """The identifiers of the rules."""
    names = []
    for rule in rules:
        name, short = has(rule, {"id": str, "shortDescription": dict}, "a rule")
        text_of(short, "a short description")
        names.append(name)
    if len(set(names)) != len(names):
        sys.exit(f"a rule stands twice: {names}")
    return names


def line_of(result, rules):
    """A result as gcc would write it."""
    level, locations, message, rule = has(result, {"level": str, "locations": list, "message": dict, "ruleId": str}, "a result")
    if level not in ("error", "warning") or rule not in rules or len(locations) != 1:
        sys.exit(f"a result of no level, no rule or no place: {result}")
    (place,) = has(locations[0], {"physicalLocation": dict}, "a location")
    artifact, region = has(place, {"artifactLocation": dict, "region": dict}, "a place")
    (uri,) = has(artifact, {"uri": str}, "a file")
    column, line = has(region, {"startColumn": int, "startLine": int}, "a region")
    if not REFERENCE.fullmatch(uri) or column < 1 or line < 1:
        sys.exit(f"no reference or no place: {place}")
    name = unquote(uri.removeprefix("file://"), errors="strict")
    return f"{name}:{line}:{column}: {level}: {text_of(message, 'a message')} [{rule}]"


def main(version):
    """Reads standard input."""
    written = sys.stdin.buffer.read().decode("utf-8", "strict")
    if not written.endswith("\n") or "\n" in written[:-1]:
        sys.exit("not one line")
    log = json.loads(written, parse_constant=lambda word: sys.exit(f"{word} is no number of JSON"))
    schema, number, runs = has(log, {"$schema": str, "version": str, "runs": list}, "the text")
    if number != "2.1.0" or not schema.endswith("sarif-2.1.0.json") or len(runs) != 1:
        sys.exit("not one run of SARIF 2.1.0")
    columns, calls, results, tool = has(runs[0], {"columnKind": str, "invocations": list, "results": list, "tool": dict}, "the run")
    (driver,) = has(tool, {"driver": dict}, "the tool")
    name, rules, told = has(driver, {"name": str, "rules": list, "version": str}, "the driver")
    if (name, told, columns, len(calls)) != ("oscheck", version, "unicodeCodePoints", 1):
        sys.exit(f"another tool, version or kind of columns: {name} {told} {columns}")
    names = rules_of(rules)
    for result in results:
        print(line_of(result, names))
    judged, notes = has(calls[0], {"executionSuccessful": bool, "toolExecutionNotifications": list}, "the call")
    levels = set()
    for note in notes:
        level, message = has(note, {"level": str, "message": dict}, "a notification")
        levels.add(level)
        print(text_of(message, "a notification's message"))
    if judged == ("error" in levels) or levels - {"error", "note"}:
        sys.exit(f"a call that is told to be {judged}, with notifications of {sorted(levels)}")


if __name__ == "__main__":
    main(sys.argv[1])
