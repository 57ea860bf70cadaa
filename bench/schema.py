#!/usr/bin/env python3
"""Holds docs/session.schema.json against the program: of each document the schema says what `solo` says of it, over an empty link.

    schema.py [PROGRAM]

The documents are those of examples/, of the cases, and a thousand that have one fault, or none: a key that is missing or unknown, a value of
another kind or past its range, an argument too few or too many, a limit and one more. A few are told that a schema cannot refuse. Prints how many there
were of each kind, and each document of which schema and program say different things; ends with 1 where there was one."""
import concurrent.futures
import copy
import glob
import json
import os
import re
import subprocess
import sys
import tempfile

from runs import PROGRAM

TOP = os.path.join(os.path.dirname(os.path.abspath(__file__)), "..")


# ---- the part of JSON Schema 2020-12 that the schema uses

TYPES = {
    "object": lambda v: isinstance(v, dict),
    "array": lambda v: isinstance(v, list),
    "string": lambda v: isinstance(v, str),
    "boolean": lambda v: isinstance(v, bool),
    "null": lambda v: v is None,
    "integer": lambda v: isinstance(v, (int, float)) and not isinstance(v, bool) and v == int(v),
}
NOTES = {"$schema", "title", "description", "$defs", "then", "else"}


def same(a, b):
    """Equal as values of JSON: true is not 1."""
    return isinstance(a, bool) == isinstance(b, bool) and a == b


class Schema:
    def __init__(self, root):
        self.root = root

    def accepts(self, value):
        return self.fits(self.root, value)

    def fits(self, schema, value):
        return all(self.rule(schema, word, given, value) for word, given in schema.items() if word not in NOTES)

    def referred(self, path):
        at = self.root
        for name in path.removeprefix("#/").split("/"):
            at = at[name]
        return at

    def rule(self, schema, word, given, value):
        """Whether a value keeps one rule of a schema; those of another type's values are kept by each."""
        if word == "$ref":
            return self.fits(self.referred(given), value)
        if word == "type":
            return TYPES[given](value)
        if word == "const":
            return same(given, value)
        if word == "enum":
            return any(same(one, value) for one in given)
        if word == "anyOf":
            return any(self.fits(one, value) for one in given)
        if word == "allOf":
            return all(self.fits(one, value) for one in given)
        if word == "if":
            return self.fits(schema["then" if self.fits(given, value) else "else"], value)
        if word in ("minimum", "maximum"):
            return not TYPES["integer"](value) or (value >= given if word == "minimum" else value <= given)
        if word in ("minLength", "maxLength"):
            return not isinstance(value, str) or (len(value) >= given if word == "minLength" else len(value) <= given)
        if word in ("minItems", "maxItems"):
            return not isinstance(value, list) or (len(value) >= given if word == "minItems" else len(value) <= given)
        if word == "prefixItems":
            return not isinstance(value, list) or all(self.fits(one, item) for one, item in zip(given, value))
        if word == "items":
            return not isinstance(value, list) or all(self.fits(given, item) for item in value)
        if word == "required":
            return not isinstance(value, dict) or all(key in value for key in given)
        if word == "properties":
            return not isinstance(value, dict) or all(self.fits(given[key], item) for key, item in value.items() if key in given)
        if word == "additionalProperties":
            return not isinstance(value, dict) or all(key in schema["properties"] for key in value)
        sys.exit(f"the schema uses {word}, which this script does not know")


# ---- documents

def value_of(text):
    """The value of a text of JSON, or nothing where it is none."""
    try:
        return json.loads(text)
    except ValueError:
        return None


def texts():
    """The documents of the examples and the cases."""
    for path in sorted(glob.glob(os.path.join(TOP, "examples", "*.json"))):
        with open(path, encoding="utf-8") as text:
            yield os.path.basename(path), text.read()
    for path in sorted(glob.glob(os.path.join(TOP, "crates", "cases", "data", "*.cases"))):
        with open(path, encoding="utf-8") as text:
            cases = text.read()
        for name, part in re.findall(r"^== (.*)\n(?:.*\n)*?file \S+\n((?:(?!== |link$|status |report).*\n)*)", cases, re.M):
            yield f"{os.path.basename(path)}: {name}", part


def is_spelled_otherwise(text):
    """Whether a document has a whole number that the program takes for none, as 1.0, 1e2 or -0."""
    numbers = []
    json.loads(text, parse_float=lambda word: numbers.append(float(word).is_integer()), parse_int=lambda word: numbers.append(word == "-0"))
    return any(numbers)


def session(calls=(), version=2, size=(8, 2), clients=1, program="a", group=1):
    client = {"program": program, "group": group, "calls": list(calls)}
    return {"version": version, "size": list(size), "clients": [copy.deepcopy(client) for _ in range(clients)]}


# A call of each form: the call of a document, with arguments at an end of their ranges.
CALLS = [
    ["title"], ["buffer-create", 4294967295], ["ignore", True], ["set-title", ""], ["duplicate", 0, 4294967295], ["set-attr", 2, 65535], ["write", 2, "a"],
    ["rect-read", 2, [-32768, 0, 32767, 0]], ["write-input", 1, [["key", True, 65535, 65535, 65535, 65535, 4294967295]]],
    ["write-input", 1, [["mouse", -32768, 32767, 4294967295, 4294967295, 4294967295]]], ["write-input", 1, [["size", 0, 65535]]],
    ["write-input", 1, [["menu", 4294967295]]], ["write-input", 1, [["focus", False]]], ["write-input", 1, []], ["alias-get", "a", "b"],
    ["set-size", 2, 8, 4294967295], ["set-cursor", 2, -32768, 32767], ["set-cursor-info", 2, 100, False], ["alias-add", "a", "b", "c"],
    ["rect-write", 2, [0, 0, 0, 0], "a", 65535], ["rect-write", 2, [0, 0, 1, 0], "ab", [0, 65535]], ["run-read-units", 2, 0, 0, 1],
    ["run-write-units", 2, 32767, -32768, "a"], ["run-write-attrs", 2, 0, 0, [0, 65535]], ["fill-attrs", 2, 0, 0, 1, 65535],
    ["scroll", 2, [0, 0, 0, 0], None, 1, 0, 46, 65535], ["scroll", 2, [0, 0, 0, 0], [0, 0, 7, 1], 1, 0, 46, 7], ["read", 1, 0], ["exit", 4294967295],
    ["read-with", 1, 9, "a", 4294967295],
]
OTHERS = (None, True, "a", [], {}, 0.5, -1, 65536, 4294967296, -32769)


def others_for(value):
    """Values of other kinds, and for a number past each range."""
    if isinstance(value, bool):
        return (None, 1, "true")
    if isinstance(value, int):
        return ("1", 0.5, -1, -32769, 65536, 4294967296)
    return (None, 7, ["a"]) if isinstance(value, str) else (7, "a", {})


def changed_at(call, path):
    """The call with another value at a place."""
    was = call
    for k in path:
        was = was[k]
    for other in others_for(was):
        new = copy.deepcopy(call)
        at = new
        for k in path[:-1]:
            at = at[k]
        at[path[-1]] = other
        yield new


def places(value, path=()):
    for k, item in enumerate(value):
        yield (*path, k)
        if isinstance(item, list):
            yield from places(item, (*path, k))


def calls_with_faults():
    for call in CALLS:
        yield call
        yield call[:-1]
        yield [*call, 0]
        yield [call[0] + "s", *call[1:]]
        for path in places(call):
            yield from changed_at(call, path)


def with_keys(document):
    """A document with a key missing or unknown, in each of its objects."""
    for pick in (lambda d: d, lambda d: d["clients"][0]):
        for key in [*pick(document), "calls2", ""]:
            new = copy.deepcopy(document)
            if key in pick(new):
                del pick(new)[key]
            else:
                pick(new)[key] = 0
            yield new
        for key in pick(document):
            for other in OTHERS:
                new = copy.deepcopy(document)
                pick(new)[key] = other
                yield new


def at_limits():
    for version, most in ((1, 16), (2, 64)):
        for n in (0, 1, most, most + 1):
            yield session([["title"]], version, clients=n)
    for version in (0, 1, 2, 3, True, "2"):
        yield session([["title"]], version)
        yield session([["read-with", 1, 9, "", 0]], version)
    for n in (1023, 1024, 1025):
        yield session([["title"]] * n)
    for size in ((1, 1), (512, 256), (513, 1), (1, 257), (0, 1), (1, 0), (8,), (8, 2, 1), (True, 2)):
        yield session(size=size)
    for n in (0, 1, 255, 256):
        yield session(program="a" * n)
    for group in (0, 1, 4294967295, 4294967296):
        yield session(group=group)
    yield session([["title"]] * 256, clients=64)
    yield session([["title"]] * 1024, 1, clients=16)
    for other in OTHERS:
        yield other


# What a schema cannot refuse: it speaks of values, and not of how they are spelled or of sums.
BEYOND = [
    ("a sum of more than 16,384 calls", json.dumps(session([["title"]] * 257, clients=64))),
    ("1.0 for 1", '{"version":1.0,"size":[8,2],"clients":[{"program":"a","group":1,"calls":[]}]}'),
    ("1e0 for 1", '{"version":1,"size":[8,2],"clients":[{"program":"a","group":1e0,"calls":[]}]}'),
    ("-0 for 0", '{"version":1,"size":[8,2],"clients":[{"program":"a","group":1,"calls":[["exit",-0]]}]}'),
    ("a program of 128 characters and 256 units", json.dumps(session(program="\U0001f600" * 128))),
]


def documents():
    for name, text in texts():
        document = value_of(text)
        yield name, text
        if isinstance(document, dict) and document.get("version") in (1, 2):
            document["version"] = 3 - document["version"]
            yield f"{name}, the other version", json.dumps(document)
    for k, one in enumerate(with_keys(session([["title"]]))):
        yield f"keys {k}", json.dumps(one)
    for k, call in enumerate(calls_with_faults()):
        for version in (1, 2) if call[:1] == ["read-with"] else (2,):
            yield f"calls {k}", json.dumps(session([call], version))
    for k, one in enumerate(at_limits()):
        yield f"limits {k}", json.dumps(one)


def takes(program, text):
    """Whether the program takes a document, or nothing where it is no JSON to it; a refusal must have a path."""
    with tempfile.NamedTemporaryFile("w", suffix=".json", encoding="utf-8") as file:
        file.write(text)
        file.flush()
        ran = subprocess.run([program, "solo", file.name], stdin=subprocess.DEVNULL, capture_output=True, check=False)
    last = ran.stderr.decode().splitlines()[-1]
    if last == '["end",3,"json"]':
        return None
    if ran.returncode not in (0, 3) or last == '["end",3,"length"]':
        sys.exit(f"status {ran.returncode}, {last}: {text[:200]}")
    return ran.returncode == 0


def main():
    program = sys.argv[1] if len(sys.argv) > 1 else PROGRAM
    if not os.access(program, os.X_OK):
        sys.exit("build the program first: ./conpty type </dev/null >/dev/null")
    with open(os.path.join(TOP, "docs", "session.schema.json"), encoding="utf-8") as text:
        schema = Schema(json.load(text))
    named = {}
    for name, text in documents():
        named.setdefault(text, name)
    wrong, taken, none, beyond = 0, 0, 0, 0
    with concurrent.futures.ThreadPoolExecutor(2) as pool:
        for (text, name), is_taken in zip(named.items(), pool.map(lambda text: takes(program, text), named)):
            if is_taken is None:
                none += 1
                continue
            taken += is_taken
            if schema.accepts(json.loads(text)) == is_taken:
                continue
            if is_spelled_otherwise(text) and not is_taken:
                beyond += 1
            else:
                wrong += 1
                print(f"OTHERWISE: {name} is {'taken' if is_taken else 'refused'} by the program alone: {text[:200]}")
    refused = len(named) - none - taken
    print(f"{len(named)} documents, of which the program takes {taken} and refuses {refused}; the schema says otherwise of {wrong}; {none} are no JSON")
    print(f"{beyond} of them have 1.0, 1e2 or -0 for a whole number, and a schema cannot refuse them")
    for name, text in BEYOND:
        if takes(program, text) or not schema.accepts(json.loads(text)):
            wrong += 1
            print(f"OTHERWISE: {name} is not refused by the program alone")
    print(f"{len(BEYOND)} that the program refuses and a schema cannot: {'; '.join(name for name, _ in BEYOND)}")
    sys.exit(wrong > 0)


main()
