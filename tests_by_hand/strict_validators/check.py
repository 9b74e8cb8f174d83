#!/usr/bin/env python3
"""Gives documents, and values of their components, to validators that go by the letter of JSON Schema.

    check.py FOLDER OPENAPI SCHEMA

FOLDER has of each source NAME the documents NAME.any.json, of --any-of, and NAME.one.json, without it, and values NAME.values.json
that are to be accepted and refused, and openapi.json, which came of the OpenAPI document OPENAPI by --openapi. SCHEMA is the JSON
Schema of OpenAPI 3.0. The document is one of 3.1, whose schemas are those of Draft 2020-12 of JSON Schema, so they are checked by
that; what else the document has stands in 3.0 as it does in 3.1. Prints a line for each document.

The exit status is 0 where each is as expected, 1 where one is not, and 2 where the arguments are others than these.
"""
import glob
import json
import os
import sys

wrong = 0


def say(found, holds):
    """Prints what was found, and counts it where it is not as expected."""
    global wrong
    wrong += not holds
    print(("" if holds else "WRONG ") + found)


def read(path):
    with open(path, encoding="utf-8") as it:
        return json.load(it)


def validator(document, name):
    """Returns the one of a component, which finds the others by `$ref`."""
    return jsonschema.Draft202012Validator({**document, "$ref": f"#/components/schemas/{name}"})


def against(document, name, values):
    """Yields each value that the component takes otherwise than the program's values say."""
    for wanted, of in ((True, "accepted"), (False, "refused")):
        for value in values[of]:
            if validator(document, name).is_valid(value) != wanted:
                yield wanted, value


def check_values(folder, name):
    """Compares the validator's answers for a source's values with those that are expected, for each keyword."""
    values = read(f"{folder}/{name}.values.json")
    count = sum(len(it["accepted"]) + len(it["refused"]) for it in values)
    documents = {keyword: read(f"{folder}/{name}.{keyword}.json") for keyword in ("any", "one")}
    others = {
        keyword: [(it["component"], *other) for it in values for other in against(document, it["component"], it)]
        for keyword, document in documents.items()
    }
    for component, wanted, value in others["any"]:
        print(f"  {component} {'refuses' if wanted else 'accepts'} {json.dumps(value)}")
    say(f"{name}: {count} values, of which anyOf decides {len(others['any'])} otherwise", not others["any"])
    # (by the letter oneOf refuses more, and never accepts what is refused)
    say(f"{name}: oneOf decides {len(others['one'])} otherwise", all(wanted for _, wanted, _ in others["one"]) and bool(others["one"]) == (name == "overlap"))


def check_openapi(folder, own, schema):
    """Checks a document that has own members and derived components."""
    document, given, derived = read(f"{folder}/openapi.json"), read(own), read(f"{folder}/shop.any.json")
    schemas = document["components"]["schemas"]
    kept = {**given, "components": {**given.get("components", {}), "schemas": None}} == {**document, "components": {**document["components"], "schemas": None}}
    say("openapi: its own members stay", kept and given.get("components", {}).get("schemas", {}).items() <= schemas.items())
    say(f"openapi: {len(schemas)} components, those that are derived among them", derived["components"]["schemas"].keys() <= schemas.keys())
    for name in schemas:
        jsonschema.Draft202012Validator.check_schema(schemas[name])
    references = set(named(document))
    say(f"openapi: {len(references)} references lead to components", all(it.removeprefix("#/components/schemas/") in schemas for it in references))
    rest = {**document, "openapi": "3.0.3", "components": {**document["components"], "schemas": {name: {} for name in schemas}}}
    errors = list(jsonschema.Draft4Validator(read(schema)).iter_errors(rest))
    for error in errors:
        print(f"  {error.message}")
    say("openapi: the document but for its schemas is as OpenAPI has it", not errors)


def named(tree):
    """Yields what each `$ref` says."""
    if isinstance(tree, dict):
        if "$ref" in tree:
            yield tree["$ref"]
        tree = list(tree.values())
    if isinstance(tree, list):
        for it in tree:
            yield from named(it)


def main(words):
    global jsonschema
    if any(it in ("-h", "--help") for it in words):
        print(__doc__, end="")
        return 0
    if len(words) != 3 or any(it.startswith("-") for it in words):
        print("check.py: its arguments are FOLDER OPENAPI SCHEMA; --help says what they are", file=sys.stderr)
        return 2
    # (only here, so that --help needs no package)
    import jsonschema

    folder, own, schema = words
    for path in sorted(glob.glob(f"{folder}/*.any.json")):
        check_values(folder, os.path.basename(path).partition(".")[0])
    if os.path.exists(schema):
        check_openapi(folder, own, schema)
    else:
        say(f"openapi: there is no {schema}, which the package openapi-specification has", False)
    print(f"{wrong} wrong")
    return 1 if wrong else 0


if __name__ == "__main__":
    sys.exit(main(sys.argv[1:]))
