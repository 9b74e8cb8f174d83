#!/usr/bin/env python3
"""Compares what serde writes and reads with the components of its types and with the warnings at them.

    check.py TYPES VALUES DOCUMENT WARNINGS

TYPES is the file of the types, VALUES the lines that the program beside this one prints, DOCUMENT what schema_gen_file writes of
TYPES, and WARNINGS its standard error. Prints each type with its values and its warnings, then what is wrong.

The exit status is 0 where nothing is wrong, 1 where a component rejects a value of a type without a warning that is owed one, or a
type has none whose line of the tables promises one, and 2 where the arguments are others than these.
"""
import json
import re
import sys

NOTES = {"default", "deprecated", "description", "format"}
KINDS = {
    "array": lambda it: isinstance(it, list),
    "boolean": lambda it: isinstance(it, bool),
    "integer": lambda it: is_number(it) and it == it // 1,
    "null": lambda it: it is None,
    "number": lambda it: is_number(it),
    "object": lambda it: isinstance(it, dict),
    "string": lambda it: isinstance(it, str),
}


def is_number(value):
    return isinstance(value, (int, float)) and not isinstance(value, bool)


def members(schema, value):
    """Yields each member's value that is described by `properties` or `additionalProperties`, with its schema."""
    described = schema.get("properties", {})
    for name, it in value.items():
        yield it, described[name] if name in described else schema.get("additionalProperties", True)


def elements(schema, value):
    """Yields each element with its schema."""
    first = schema.get("prefixItems", [])
    for at, it in enumerate(value):
        yield it, first[at] if at < len(first) else schema.get("items", True)


class Checker:
    """Says whether a schema accepts a value. Of a `oneOf` one schema or more must, as the project reads it."""

    def __init__(self, schemas):
        self.schemas = schemas

    def accepts(self, schema, value):
        if isinstance(schema, bool):
            return schema
        return all(self.holds(word, schema, value) for word in schema if word not in NOTES)

    def each(self, pairs):
        return all(self.accepts(schema, it) for it, schema in pairs)

    def holds(self, word, schema, value):
        said = schema[word]
        if word == "type":
            return any(KINDS[kind](value) for kind in ([said] if isinstance(said, str) else said))
        if word == "enum":
            return value in said
        if word == "oneOf":
            return any(self.accepts(it, value) for it in said)
        if word == "allOf":
            return all(self.accepts(it, value) for it in said)
        if word == "$ref":
            return self.accepts(self.schemas[said.removeprefix("#/components/schemas/")], value)
        if word == "minimum":
            return not is_number(value) or value >= said
        if word in ("properties", "additionalProperties"):
            return not isinstance(value, dict) or self.each(members(schema, value))
        if word == "required":
            return not isinstance(value, dict) or all(name in value for name in said)
        if word == "propertyNames":
            return not isinstance(value, dict) or self.each((name, said) for name in value)
        if word in ("items", "prefixItems"):
            return not isinstance(value, list) or self.each(elements(schema, value))
        if word == "minItems":
            return not isinstance(value, list) or len(value) >= said
        if word == "maxItems":
            return not isinstance(value, list) or len(value) <= said
        if word == "uniqueItems":
            texts = [json.dumps(it, sort_keys=True) for it in value] if isinstance(value, list) else []
            return not said or len(texts) == len(set(texts))
        sys.exit(f"no check of the keyword {word}")


def declared(path):
    """Returns the lines, from the first to the last, of the paragraph of each type that serde compiles."""
    found, begin = {}, 1
    with open(path, encoding="utf-8") as it:
        lines = it.read().split("\n")
    for at, line in enumerate(lines + [""], 1):
        if line.strip():
            continue
        text = "\n".join(lines[begin - 1:at - 1])
        name = re.search(r"^pub (?:struct|enum) (\w+)", text, re.MULTILINE)
        if name and "cfg(any())" not in text:
            found[name[1]] = range(begin, at)
        begin = at + 1
    return found


def warned(path, types):
    """Returns the lines and the sentences of the warnings at the types, and those without a place, or how many are left out."""
    found, others = [], []
    with open(path, encoding="utf-8") as it:
        for line in it.read().split("\n"):
            at = re.match(r"(.*):(\d+):\d+: warning: (.*)$", line)
            if at and types.endswith(at[1]):
                found.append((int(at[2]), at[3]))
            elif at or re.match(r"and \d+ more$|warning: ", line):
                others.append(line)
    return found, others


def main(words):
    if any(it in ("-h", "--help") for it in words):
        print(__doc__, end="")
        return 0
    if len(words) != 4 or any(it.startswith("-") for it in words):
        print("check.py: its arguments are TYPES VALUES DOCUMENT WARNINGS; --help says what they are", file=sys.stderr)
        return 2
    types, values, document, warnings = words
    with open(document, encoding="utf-8") as it:
        schemas = json.load(it)["components"]["schemas"]
    with open(values, encoding="utf-8") as it:
        rows = [json.loads(line) for line in it]
    checker, lines, wrong, rejected, all_warned = Checker(schemas), declared(types), [], 0, 0
    told, others = warned(warnings, types)
    wrong += [f"schema_gen_file says: {line}" for line in others]
    wrong += [f"{name} has no values" for name in sorted(set(lines) - {row["type"] for row in rows})]
    for row in rows:
        name, owed = row["type"], row["owed"]
        at = lines[name]
        said = [(line, text) for line, text in told if line in at]
        judged = [("writes", row["value"])] if "value" in row else []
        judged = [(how, it, checker.accepts(schemas[name], it)) for how, it in judged + [("reads", it) for it in row["reads"]]]
        print(f"{name} ({at.start}..{at.stop - 1}), owed a warning: {owed}")
        for how, it, accepted in judged:
            print(f"    {how:7} {'accepted' if accepted else 'REJECTED'}  {json.dumps(it)}")
        for line, text in said:
            print(f"    line {line}: {text}")
        no = [json.dumps(it) for _, it, accepted in judged if not accepted]
        rejected += len(no)
        all_warned += len(said)
        if not said and (owed == "always" or no and owed == "rejected"):
            wrong.append(f"{name} is not warned of" + (f", and its component rejects {', '.join(no)}" if no else ""))
    stray = [line for line, _ in told if not any(line in at for at in lines.values())]
    print(f"{len(rows)} types, {rejected} rejected values, {all_warned} warnings, {len(stray)} elsewhere; {len(wrong)} wrong")
    for it in wrong:
        print(f"WRONG: {it}")
    return 1 if wrong else 0


if __name__ == "__main__":
    sys.exit(main(sys.argv[1:]))
