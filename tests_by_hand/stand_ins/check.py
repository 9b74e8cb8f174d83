#!/usr/bin/env python3
"""Compares what serde does with values of other crates' types with the components of the stand-ins for these types.

    check.py PROGRAM STAND_INS VALUES..

PROGRAM is schema_gen_file, STAND_INS the folder of the stand-ins, and VALUES are files of lines that the program beside this one prints.
A struct is made of each stand-in file that has lines, with a field for each type, and its components are made beside the stand-ins.
Files that declare no common name are taken together. Prints each type with the number of its values, then what is wrong.

The exit status is 0 where nothing is wrong, 1 where something is, and 2 where a component is missing or the arguments are others than
these.
"""
import json
import os
import re
import subprocess
import sys
import tempfile

# The types that the program itself declares and gives as arguments.
OWN = "enum Color { Red, Green, Blue }\nenum Right { Read, Write }\nstruct EmptyStaticAtomSet(String);\n"
# Whether the schema accepts a value of which serde does this.
OWED = {"writes": True, "reads": True, "wider": True, "refuses": False, "narrower": False}


def names_of(path):
    """Returns the names that a stand-in file declares."""
    with open(path, encoding="utf-8") as it:
        return set(re.findall(r"^pub (?:struct|enum|type) (\w+)", it.read(), re.MULTILINE))


def grouped(folder, files):
    """Returns lists of files, in each of which no two declare a common name."""
    groups = []
    for file in sorted(files):
        names = names_of(f"{folder}/{file}.rs")
        for group in groups:
            if not names & group["names"]:
                break
        else:
            group = {"names": set(), "files": []}
            groups.append(group)
        group["names"] |= names
        group["files"].append(file)
    return [group["files"] for group in groups]


def derived(program, folder, files, types):
    """Returns the document of a struct for each file, named `In0` and so on, whose fields `f0` and so on have the types."""
    with tempfile.TemporaryDirectory() as to:
        wrapper = f"{to}/wrapper.rs"
        with open(wrapper, "w", encoding="utf-8") as it:
            it.write(OWN)
            for at, file in enumerate(files):
                fields = "".join(f"    f{n}: {name},\n" for n, name in enumerate(types[file]))
                it.write(f"#[derive(Serialize)]\nstruct In{at} {{\n{fields}}}\n")
        words = [program, "--serde", wrapper, *(f"--stand-in={folder}/{file}.rs" for file in files)]
        ran = subprocess.run(words, capture_output=True, text=True, check=False)
    if ran.returncode:
        print(ran.stderr, end="", file=sys.stderr)
        sys.exit(2)
    return json.loads(ran.stdout)


def main(words):
    if any(it in ("-h", "--help") for it in words):
        print(__doc__, end="")
        return 0
    if len(words) < 3 or any(it.startswith("-") for it in words):
        print("check.py: its arguments are PROGRAM STAND_INS VALUES..; --help says what they are", file=sys.stderr)
        return 2
    # (only here, so that --help needs no package)
    import jsonschema

    program, folder, *paths = words
    rows, types = {}, {}
    for path in paths:
        with open(path, encoding="utf-8") as it:
            for line in it:
                row = json.loads(line)
                names = types.setdefault(row["file"], [])
                if row["type"] not in names:
                    names.append(row["type"])
                rows.setdefault((row["file"], row["type"]), []).append((row["how"], row["value"]))
    wrong, known, met = [], set(), set()
    for files in grouped(folder, types):
        document = derived(program, folder, files, types)
        met |= set(document["components"]["schemas"])
        for at, file in enumerate(files):
            known |= {(file, name) for name in names_of(f"{folder}/{file}.rs")}
            for n, name in enumerate(types[file]):
                place = {"$ref": f"#/components/schemas/In{at}/properties/f{n}"}
                validator = jsonschema.Draft202012Validator({**document, **place})
                for how, value in rows[file, name]:
                    if validator.is_valid(value) != OWED[how]:
                        wrong.append(f"{file}: {name}: {'refused' if OWED[how] else 'accepted'}, of {how}: {json.dumps(value)}")
                hows = [how for how, _ in rows[file, name]]
                print(f"{file}: {name}: " + ", ".join(f"{hows.count(how)} {how}" for how in OWED if how in hows))
    said = {word for names in types.values() for name in names for word in re.findall(r"\w+", name)}
    for file, name in sorted(known):
        if name not in said:
            print(f"{file}: {name}: no value")
    values = sum(map(len, rows.values()))
    print(f"{len(types)} files, {len(rows)} types, {values} values; {len(wrong)} wrong")
    for it in wrong:
        print(f"WRONG: {it}")
    return 1 if wrong else 0


if __name__ == "__main__":
    sys.exit(main(sys.argv[1:]))
