#!/usr/bin/env python3
"""Runs schema_gen_file on the sources of crates, as they are, and counts what it refuses.

    archive.py [OPTION].. REGISTRY

REGISTRY is a folder of crates as Debian packages them: its librust-*-dev packages put them into /usr/share/cargo/registry. Taken is each
crate of which a file of `src` derives serde's traits, under a condition perhaps. The program reads all .rs files of its `src`, with the
argument `--serde` and with the stand-ins whose crate the sources name as the root of a path, those of the standard library always.

Where there is a document the crate derives; it describes nothing where no declaration is taken. Else the faults are counted by kinds.
The program reports the first hundred faults, and of a declaration the first. Behind the totals stands each unknown name, with its crates.

With `--leave-out` what a refusal says to leave out by `--exclude` is left out, of two declarations or aliases of one name the one that
is reported, of two fields or variants of one name the declaration that they stand in, and the crate is run again, until nothing more
is given twice. Such crates are counted for themselves.

The exit status is 0 whatever the program refuses, and 2 where the arguments are others than these.
"""
import argparse
import collections
import os
import re
import shlex
import subprocess
import sys

DERIVE = re.compile(r"\bderive\s*\([^)]*\b(?:Serialize|Deserialize)\b")
PLAIN = re.compile(r"#\s*\[\s*derive\s*\([^)]*\b(?:Serialize|Deserialize)\b")
FAULT = re.compile(r"^(?P<path>/.*?)(?::(?P<line>\d+):(?P<column>\d+))?: (?P<kind>[A-Z]\w+): (?P<message>.*)$")
DECLARES = re.compile(r"^\s*(?:pub\b.*)?\b(?:struct|enum)\s+\w")
UNKNOWN = "unknown type "


def read(path):
    with open(path, encoding="utf-8", errors="replace") as it:
        return it.read()


def sources(folder):
    """Returns the paths of a crate's Rust files, in order."""
    found = []
    for at, folders, files in os.walk(f"{folder}/src"):
        folders.sort()
        found += [f"{at}/{file}" for file in sorted(files) if file.endswith(".rs")]
    return found


def names_root(crate, text):
    """Tells whether a text names a crate as the root of a path, and no module of this name that it has in scope."""
    scope = rf"\buse\s[^;]*(?:::|[{{,])\s*{crate}\s*(?:[;,}}]|::\s*\{{\s*self\b)|\bmod\s+{crate}\s*[;{{]"
    # (of a `use` only the root counts: in `use std::{fs, time::Duration};` that is `std`)
    roots = re.sub(r"\buse\s+(?:::\s*)?(\w+)\b[^;]*;", r"use \1::;", text)
    return re.search(rf"(?<!:)\b{crate}\s*::", roots) and not re.search(scope, text)


def stand_ins(folder, texts):
    """Returns the arguments for the stand-ins of the crates that the sources name."""
    named = [file for file in sorted(os.listdir(folder)) if file == "std.rs" or any(names_root(file.removesuffix(".rs"), text) for text in texts)]
    return [f"--stand-in={os.path.realpath(folder)}/{file}" for file in named]


def crates(it, registry):
    """Yields each crate with the arguments for the program."""
    for crate in sorted(os.listdir(registry)):
        paths = sources(f"{registry}/{crate}")
        texts = [re.sub(r"//.*", "", read(path)) for path in paths]
        if not any((PLAIN if it.plain else DERIVE).search(text) for text in texts):
            continue
        more = stand_ins(it.stand_ins, texts) if it.stand_ins and not it.answers else []
        yield crate, [*shlex.split(it.words), *more, *paths]


def answers(path):
    """Returns the exit status and the standard error of each case."""
    found, begin = {}, 0
    lines = read(path).split("\n")
    for at, line in enumerate(lines):
        match = re.match(r"case=(\S+) .*?status=(\d+)", line) or re.match(r"case=(\S+) (run=\S+)", line)
        if match:
            status = int(match[2]) if match[2].isdigit() else -1
            found[match[1]] = status, "\n".join(lines[begin:at])
            begin = at + 1
    return found


def faults(said):
    """Returns the faults that the program reported: what stands in the line of each, with the line of the source and the help."""
    found = []
    for line in said.split("\n"):
        match = FAULT.match(line)
        if match:
            found.append({**match.groupdict(), "shown": [], "help": ""})
        elif found and line.startswith("help: "):
            found[-1]["help"] = line
        elif found:
            found[-1]["shown"].append(line)
    return found


def kind(fault):
    """Returns of which kind a fault is, in words."""
    line, at = (fault["shown"] or [""])[0], int(fault["column"] or 1) - 1
    if fault["kind"] == "UnknownType":
        return "type of another crate or of a macro"
    if "is not built" in fault["help"] or "flatten" in fault["message"]:
        return "feature not built"
    if "given twice" in fault["message"] and DECLARES.search(line):
        return "two declarations of one name"
    if fault["kind"] == "Syntax" and line[at:at + 1] == "=" and re.search(r"\b(struct|enum)\b", line):
        return "default of a type parameter"
    if fault["kind"] == "Syntax" and line[at:at + 1] == "*":
        return "raw pointer"
    if fault["kind"] == "Syntax" and re.search(r"\w!\s*[\[({]", line):
        return "macro in a type"
    return f"other: {fault['kind']}"


def named_line(fault):
    """Returns the line that `--exclude` wants for what a fault says to leave out: its own, or that of the name of the declaration there."""
    line = int(fault["line"])
    if "the line of its name" in fault["help"]:
        lines = read(fault["path"]).split("\n")[:line]
        line = max((at for at, it in enumerate(lines, 1) if DECLARES.search(it)), default=line)
    return line


def given_twice(said):
    """Returns the places, `PATH:LINE`, of what a refusal says to leave out since another has its name."""
    of_names = [it for it in faults(said) if it["kind"] in ("DuplicateName", "AliasDepth") and "--exclude" in it["help"]]
    return [f"{it['path']}:{named_line(it)}" for it in of_names]


def run(program, words, leaves_out):
    """Returns the exit status, the standard error and how many declarations and aliases are left out."""
    left = []
    while True:
        ran = subprocess.run([program, *(f"--exclude={it}" for it in left), *words], capture_output=True, text=True, errors="replace", check=False)
        more = [it for it in given_twice(ran.stderr) if it not in left] if leaves_out else []
        if not more:
            return ran.returncode, ran.stderr, len(left)
        left += more


def judge(crate, status, said, left, totals, registry):
    """Prints what became of a crate, and adds it to the totals."""
    if status == 0:
        which = "derives nothing" if "nothing is described" in said else "derives"
        which += " where what is given twice is left out" if left else ""
        totals["crates"][which] += 1
        print(f"{crate}: {which}")
        return
    found = faults(said)
    kinds = collections.Counter(map(kind, found))
    names = collections.Counter(it["message"].removeprefix(UNKNOWN) for it in found if it["kind"] == "UnknownType")
    totals["faults"] += kinds
    for name in names:
        totals["names"].setdefault(name, []).append(crate)
    totals["crates"][" and ".join(sorted(kinds)) or f"status {status}"] += 1
    more = re.search(r"^and (\d+) more$", said, re.MULTILINE)
    counts = [f"{count} {it}" for it, count in kinds.most_common()] + ([f"and {more[1]} more"] if more else [])
    print(f"{crate}: {', '.join(counts) or f'status {status}'}")
    if names:
        print("    unknown: " + ", ".join(f"{name} {count}" if count > 1 else name for name, count in names.most_common()))
    for it in found:
        if it["kind"] != "UnknownType":
            place = it["path"].removeprefix(f"{registry}/") + (f":{it['line']}:{it['column']}" if it["line"] else "")
            print(f"    {place}: {it['kind']}: {it['message']}    {' '.join(it['shown'][:1]).strip()[:100]}")


def main():
    here = os.path.dirname(os.path.dirname(os.path.dirname(os.path.realpath(__file__))))
    words = argparse.ArgumentParser(description=__doc__, formatter_class=argparse.RawDescriptionHelpFormatter)
    words.add_argument("--program", metavar="PATH", default=f"{here}/schema_gen_file", help="the program, instead of ./schema_gen_file of this repository")
    words.add_argument("--stand-ins", metavar="FOLDER", default=f"{here}/stand_ins", help="the folder of the stand-ins, instead of stand_ins; `--stand-ins=` takes none")
    words.add_argument("--words", metavar="WORDS", default="--serde", help="the arguments before the files, instead of `--serde`")
    words.add_argument("--leave-out", action="store_true", help="leaves out what a refusal says is given twice, and runs again")
    words.add_argument("--plain", action="store_true", help="only crates of which a derive stands under no condition")
    words.add_argument("--cases", metavar="FOLDER", help="runs nothing, and puts each crate's arguments into FOLDER, as `rt try --cases` reads them")
    words.add_argument("--answers", metavar="FILE", help="runs nothing, and reads what `rt try --cases` wrote on standard error")
    words.add_argument("registry", metavar="REGISTRY", help="a folder of crates")
    it = words.parse_args()
    registry = os.path.realpath(it.registry)
    totals = {"crates": collections.Counter(), "faults": collections.Counter(), "names": {}}
    answered = answers(it.answers) if it.answers else None
    for crate, said in crates(it, registry):
        if it.cases:
            os.makedirs(it.cases, exist_ok=True)
            for name, lines in ((crate, []), (f"{crate}.args", said)):
                with open(f"{it.cases}/{name}", "w", encoding="utf-8") as to:
                    to.write("".join(f"{line}\n" for line in lines))
        elif answered is not None:
            if crate in answered:
                judge(crate, *answered[crate], 0, totals, registry)
        else:
            judge(crate, *run(it.program, said, it.leave_out), totals, registry)
    if it.cases:
        return 0
    print(f"\n{sum(totals['crates'].values())} crates")
    for which, count in totals["crates"].most_common():
        print(f"    {count} {which}")
    print(f"{sum(totals['faults'].values())} faults that were reported")
    for which, count in totals["faults"].most_common():
        print(f"    {count} {which}")
    print(f"{len(totals['names'])} unknown names")
    for name, where in sorted(totals["names"].items(), key=lambda it: (-len(it[1]), it[0])):
        print(f"    {len(where)} {name}: {' '.join(where)}")
    return 0


if __name__ == "__main__":
    sys.exit(main())
