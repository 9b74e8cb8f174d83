#!/usr/bin/env bash
# Sources of 1 MiB that are one token, one type, one list or one kind of token, sources at the bounds on instances, sources and
# configurations with aliases, schemas of thousands of levels, and files of up to 16 MiB: the time and the peak memory that the
# programs take for each, in a stack of 1 MiB, and the exit status. By hand; no test rests on it.
#
#     bench/hostile.sh
#
# ./build makes the programs, unless the variables PROGRAM (schema_gen derive) and FILE_PROGRAM (schema_gen_file) name them. In the
# table a status below 0 is the signal that ended a run, and a row that ends in `beyond` took more than its limits.
#
# The exit status is 0 where each run ended with a status of its own and within its limits, 1 where one did not, 2 where there is an
# argument, and else that of ./build.
set -eu
if [ $# -gt 0 ]; then
    case $1 in
        -h | --help) sed -n '2,/^[^#]/s/^# \{0,1\}//p' "$0" && exit ;;
    esac
    echo "bench/hostile.sh: $1: it takes no arguments, but for --help" >&2
    exit 2
fi
here=$(cd "$(dirname "$0")/.." && pwd)
program=${PROGRAM:-$here/crates/schema_gen_cli/out/schema_gen_cli}
file_program=${FILE_PROGRAM:-$here/crates/schema_gen_file/out/schema_gen_file}
{ [ -x "$program" ] && [ -x "$file_program" ]; } || "$here/build"
python3 - "$program" "$file_program" <<'PY'
import json, os, resource, subprocess, sys, tempfile, time

program, file_program = sys.argv[1:]
size = 1 << 20

def filled(unit):
    return unit * (size // len(unit))

def field(before, unit, after):
    room = size - len("struct S { a: " + before + after + " }")
    return "struct S { a: " + before + unit * (room // len(unit)) + after + " }"

def tuples(many, target, often, end):
    parts = ["struct A%d { p: (%s,) }" % (at, ", ".join("A%d" % t for t in target(at, often))) for at in range(many)]
    return " ".join(parts + [end])

def chained(levels, often):
    return tuples(levels - 1, lambda at, often: [at + 1] * often, often, "struct A%d { p: bool }" % (levels - 1))

# Each of 4,096 inlines those that the answer says.
def inlining(which):
    return " ".join("struct A%d { p: (%s) }" % (at, "".join("A%d, " % t for t in which(at)) or "bool, bool") for at in range(4096))

# A struct with so many flattened fields, and more behind them.
def flattening(many, behind=""):
    return "struct A { x: bool } struct S { " + "#[serde(flatten)]a:A," * many + behind + " }"

# Doublings of an argument: behind seven of them it has 255 names.
def doubled(levels):
    parts = ["struct D%d<T> { n: D%d<P<T, T>> }" % (at, at + 1) for at in range(levels)]
    return " ".join(["struct P<A, B> { a: A, b: B }"] + parts + ["struct D%d<T> { n: T }" % levels, "struct R { n: D0<u8> }"])

# A struct, the arguments, and each generic struct with each argument.
def products(generics, arguments):
    fields = ", ".join("f%d_%d: A%d<B%d>" % (g, a, g, a) for g in range(generics) for a in range(arguments))
    parts = ["struct A%d<T> { n: T }" % g for g in range(generics)] + ["struct B%d { n: bool }" % a for a in range(arguments)]
    return " ".join(parts + ["struct R { %s }" % fields])

# Each is made when it is its turn, for the memory of this script counts as that of what it starts. The first are derived with
# room for 4,096 instances.
roomy = [
    ("ring of 4,096", lambda: " ".join("struct A%d { n: Box<A%d>, o: Option<bool> }" % (at, (at + 1) % 4096) for at in range(4096))),
    ("chains of 4,096", lambda: inlining(lambda at: [at + 1] if (at + 1) % 32 else [])),
    ("groups of 4,096", lambda: inlining(lambda at: [t for t in range(at + 1, at + 4) if t // 4 == at // 4])),
    ("4,033 instances", lambda: products(62, 64)),
    ("4,161 instances", lambda: products(64, 64)),
    ("4,096 flatten the next", lambda: " ".join("struct A%d { #[serde(flatten)] n: Box<A%d> }" % (at, (at + 1) % 4096) for at in range(4096))),
]
sources = [
    ("20,000 fields", lambda: "struct S { " + ", ".join("f%d: %s" % (k, ("u64", "Option<String>", "Vec<bool>", "Box<S>")[k % 4]) for k in range(20000)) + " }"),
    ("7 doublings", lambda: doubled(7)),
    ("40 doublings", lambda: doubled(40)),
    ("endless argument", lambda: "struct A<T> { n: Option<Box<A<Vec<T>>>> } struct R { n: A<u8> }"),
    ("993 instances", lambda: products(30, 32)),
    ("1,057 instances", lambda: products(32, 32)),
    ("next few inlined", lambda: tuples(999, lambda at, often: [min(at + k + 1, 999) for k in range(often)], 3, "struct A999 { p: bool }")),
    ("few in groups", lambda: tuples(996, lambda at, often: [at + 1 + k for k in range(often) if (at + 1 + k) // 4 == at // 4] or [999], 3, "struct A999 { p: bool }")),
    ("255 inlined", lambda: chained(2, 255)),
    ("32 levels of 255", lambda: chained(32, 255)),
    ("33 levels of 255", lambda: chained(33, 255)),
    ("9,000 copies", lambda: " ".join("struct A%d { p: (%s) }" % (at, "A0, " * 9) for at in range(1, 1000)) + " struct A0 { " + ", ".join("f%d: Option<Vec<String>>" % k for k in range(39)) + " }"),
    ("45,000 flattened", lambda: flattening(45000)),
    ("two maps among them", lambda: flattening(45000, "#[serde(flatten)]b:Map<A,A>," * 2)),
    ("33 flatten arguments", lambda: "struct A { x: bool } struct F<T> { #[serde(flatten)] t: T } struct R { #[serde(flatten)] r: %sA%s }" % ("F<" * 33, ">" * 33)),
    ("one comment", lambda: "/*" + "x" * (size - 4) + "*/"),
    ("nested comments", lambda: "/*" * (size // 4) + "*/" * (size // 4)),
    ("open comments", lambda: filled("/*")),
    ("one string", lambda: 'use "' + "x" * (size - 7) + '";'),
    ("one identifier", lambda: "use " + "x" * (size - 5) + ";"),
    ("one number", lambda: "use " + "1" * (size - 5) + ";"),
    ("two colons", lambda: "use " + "::" * ((size - 5) // 2) + ";"),
    ("open raw strings", lambda: filled('r#"')),
    ("quotes", lambda: filled("'")),
    ("lifetimes", lambda: filled("'a ")),
    ("doc comments", lambda: filled("/// doc\n")),
    ("use lines", lambda: filled("use a::b;")),
    ("brackets", lambda: filled("(")),
    ("one path", lambda: field("", "a::", "u8")),
    ("references", lambda: field("", "&", "u8")),
    ("one argument list", lambda: field("Vec<", "u8,", "u8>")),
    ("one tuple", lambda: field("(", "u8,", "u8)")),
    ("one struct", lambda: "struct S { " + "a: u8, " * ((size - 13) // 7) + "}"),
    ("empty structs", lambda: filled("struct S {}")),
    ("many lifetimes", lambda: "struct S<" + ",".join("'a%06d" % at for at in range((size - 24) // 9)) + "> { a: u8 }"),
    ("many bounds", lambda: "struct S<'a> where u8: " + "B+" * ((size - 40) // 2) + "B { a: u8 }"),
    ("many predicates", lambda: "struct S<'a> where " + "B:C," * ((size - 40) // 4) + " { a: u8 }"),
]
# The fields of a struct, each of one of the types.
def fields(many, *types):
    return "struct S { " + ", ".join("f%d: %s" % (at, types[at % len(types)]) for at in range(many)) + " }"

# As many fields without names as there is room for, each of the type.
def unnamed(of):
    return "struct S(" + (of + ",") * ((size - 11) // (len(of) + 1)) + ");"

# An alias whose text fills what a configuration may hold.
def long_text(before, unit, after):
    room = size - len(json.dumps({"aliases": {"A": before + after}}, separators=(",", ":")))
    return {"A": before + unit * (room // len(unit)) + after}

# So many aliases, each of which stands for the next, and the last for this type.
def chain(many, end="bool"):
    return {"A%d" % at: "A%d" % (at + 1) if at + 1 < many else end for at in range(many)}

# 32 rows of so many aliases, each of which names others of the next row.
def rows(many, others):
    of = lambda row, at: "(" + "".join("A%d_%d," % (row + 1, (at + k) % many) for k in range(others)) + ")" if row < 31 else "bool"
    return {"A%d_%d" % (row, at): of(row, at) for row in range(32) for at in range(many)}

def short_names(many):
    first = "ABCDEFGHIJKLMNOPQRSTUVWXYZabcdefghijklmnopqrstuvwxyz_"
    names = (a + b + c for a in first for b in first + "0123456789" for c in first + "0123456789")
    return [name for name, _ in zip(names, range(many))]

# Sources, and what names stand for there.
aliased = [
    ("20,000 in a chain", lambda: fields(20000, "A0", "Vec<A0>"), lambda: chain(32)),
    ("350,000 in a chain", lambda: unnamed("A0"), lambda: chain(32)),
    ("one tuple of chains", lambda: field("(", "A0,", "A0)"), lambda: chain(32)),
    ("one list of chains", lambda: field("Vec<", "A0,", "A0>"), lambda: chain(32)),
    ("2,000 of 256 names", lambda: fields(2000, "A"), lambda: {"A": "(" + "bool," * 255 + ")"}),
    ("20,000 of 256 names", lambda: fields(20000, "A") + " struct D<" + ",".join("T%d" % at for at in range(255)) + "> { a: bool }",
        lambda: {"A": "D<" + "bool," * 255 + ">"}),
    ("30,000 of 64 levels", lambda: fields(30000, "A"), lambda: {"A": "Box<" * 63 + "bool" + ">" * 63}),
    ("31 doublings", lambda: fields(1, "A0"), lambda: {"A%d" % at: "(A%d, A%d)" % (at + 1, at + 1) if at < 31 else "bool" for at in range(32)}),
    ("31 times 256", lambda: fields(1, "A0"), lambda: {"A%d" % at: "(" + "A%d," % (at + 1) * 256 + ")" if at < 31 else "bool" for at in range(32)}),
    ("a text of lifetimes", lambda: fields(20000, "A"), lambda: long_text("bool<", "'a,", "'a>")),
    ("a text of constants", lambda: fields(20000, "A"), lambda: long_text("bool<", "1,", "1>")),
    ("a text of one block", lambda: fields(20000, "A"), lambda: long_text("bool<{ ", "1 ", "}>")),
    ("a text of prefixes", lambda: fields(20000, "A"), lambda: long_text("", "a::", "bool")),
    ("prefixes with types", lambda: fields(20000, "A"), lambda: long_text("", "a<u8>::", "bool")),
    ("one long prefix", lambda: fields(20000, "A"), lambda: long_text("", "a", "::bool")),
    ("a text of bounds", lambda: fields(20000, "A"), lambda: long_text("dyn bool", "+B", "")),
    ("a text of spaces", lambda: fields(20000, "A"), lambda: long_text("", " ", "bool")),
    ("a text of types", lambda: fields(20000, "bool"), lambda: long_text("(", "u8,", ")")),
    ("a used text of types", lambda: fields(20000, "A"), lambda: long_text("(", "u8,", ")")),
    ("a text of brackets", lambda: fields(20000, "A"), lambda: long_text("", "(", "")),
    ("10,000 aliases", lambda: fields(10000, *("A%d" % at for at in range(10000))), lambda: {"A%d" % at: "Option<u64>" for at in range(10000)}),
    ("100,000 unused", lambda: fields(1, "bool"), lambda: {name: "u" for name in short_names(100000)}),
    ("a chain of 50,000", lambda: fields(1, "bool"), lambda: chain(50000)),
    ("32 rows", lambda: fields(100, *("A31_%d" % at for at in range(100))), lambda: rows(100, 20)),
    ("32 rows used", lambda: fields(100, "A0_0"), lambda: rows(100, 20)),
    ("33 rows", lambda: fields(100, "A"), lambda: {**rows(100, 20), "A": "A0_0"}),
]
# A type that nests so many levels, of so many aliases that nest at most 60, which it comes with.
def levels(name, many, end):
    steps = [min(60, many - at) for at in range(0, many, 60)]
    names = [name] + ["%s_%d" % (name, at) for at in range(1, len(steps))] + [end]
    return {names[at]: "Vec<" * step + names[at + 1] + ">" * step for at, step in enumerate(steps)}

# So many structs of which each inlines the next at the bottom of 240 levels, and the types that they name.
def inlined(many):
    types = {name: of for at in range(many) for name, of in levels("X%d" % at, 180, "A%d" % (at + 1)).items()}
    parts = ["struct A%d { p: (%sX%d%s,) }" % (at, "Vec<" * 60, at, ">" * 60) for at in range(many)]
    return types, " ".join(parts + ["struct A%d(u8);" % many])

deep = [("7,400 levels", lambda: inlined(30)[1], lambda: inlined(30)[0])]

def inlined_file(many):
    types, structs = inlined(many)
    return " ".join(["type %s = %s;" % each for each in types.items()] + [structs])

# Fields of a struct that nothing is said of, 46 bytes each, and functions, up to so many bytes.
def long_struct(size):
    return "struct S { " + "".join("a_field_with_a_long_name_%07d: Option<String>,\n" % at for at in range((size - 20) // 49)) + "}"

def functions(size):
    part = "fn f%d(x: u64) -> u64 { let y = x + 1; if y > 2 { call(y, &[1, 2, 3]) } else { y * 2 } }\n"
    whole, at, parts = 0, 0, []
    while whole + 100 < size:
        parts.append(part % at)
        whole, at = whole + len(parts[-1]), at + 1
    return "".join(parts) + "struct S { a: bool }"

# A struct of so many fields that may be missing and one that may not, and a struct with so many flattened fields that may be it.
def optional(many, flattened):
    parts = ["a%d: Option<u8>,\n" % at for at in range(many)] + ["last: u8 } struct S { "]
    return "struct T { " + "".join(parts + ["#[serde(flatten)] f%d: Option<T>,\n" % at for at in range(flattened)]) + "}"

# Files, what is asked for beside them, where FILE is a document without schemas, and the limits.
files = [
    ("7,400 levels, a file", lambda: inlined_file(30), [], (4, 100)),
    ("the same, checked", lambda: inlined_file(30), ["--check", "FILE"], (4, 100)),
    ("the same, merged", lambda: inlined_file(30), ["--openapi", "FILE"], (4, 100)),
    ("1,900 levels, pretty", lambda: inlined_file(8), ["--pretty"], (4, 400)),
    ("16 MiB of functions", lambda: functions(16 << 20), [], (8, 150)),
    ("8 MB of fields", lambda: long_struct(8000000), [], (12, 400)),
    ("50,000 flattened", lambda: optional(0, 50000), [], (4, 200)),
    ("20,000 of 20,000", lambda: optional(20000, 20000), [], (4, 200)),
]

# A stack has 1 MiB. A run ends with an exit status below 0 where it takes a minute of a processor, and it has 8 GiB.
def bounded():
    resource.setrlimit(resource.RLIMIT_STACK, (1 << 20, 1 << 20))
    resource.setrlimit(resource.RLIMIT_CPU, (60, 60))
    resource.setrlimit(resource.RLIMIT_AS, (8 << 30, 8 << 30))

beyond = []

# One run, with what it is given on standard input, and its limits in seconds and MiB.
def measured(name, words, given, limits):
    with tempfile.TemporaryFile() as file, open(os.devnull, "wb") as nothing:
        file.write(given)
        file.seek(0)
        start = time.perf_counter()
        child = subprocess.Popen(words, stdin=file, stdout=nothing, stderr=nothing, preexec_fn=bounded)
        _, status, usage = os.wait4(child.pid, 0)
        took, peak, code = time.perf_counter() - start, usage.ru_maxrss / 1024, os.waitstatus_to_exitcode(status)
    within = took <= limits[0] and peak <= limits[1] and code >= 0
    print("%-22s %9.3f %9.1f %7d%s" % (name, took, peak, code, "" if within else "  beyond"), flush=True)
    if not within:
        beyond.append(name)

print("%-22s %9s %9s %7s" % ("source", "seconds", "peak MiB", "status"))
bounds = lambda: {"limit": 4096, "copies": 100000}
runs = [(name, made, bounds) for name, made in roomy] + [(name, made, None) for name, made in sources]
runs += [(name, made, lambda stand_for=stand_for: {"aliases": stand_for()}) for name, made, stand_for in aliased + deep]
for name, made, configured in runs:
    text = made()
    words = [program, "derive"]
    if configured:
        config = tempfile.NamedTemporaryFile("w")
        config.write(json.dumps(configured(), separators=(",", ":")))
        config.flush()
        words += ["--config", config.name]
    measured(name, words, text.encode(), (8, 500))
for name, made, words, limits in files:
    with tempfile.NamedTemporaryFile("w", suffix=".rs") as source, tempfile.NamedTemporaryFile("w", suffix=".json") as document:
        source.write(made())
        source.flush()
        document.write('{"openapi":"3.1.0"}')
        document.flush()
        measured(name, [file_program, *[document.name if word == "FILE" else word for word in words], source.name], b"", limits)
sys.exit(1 if beyond else 0)
PY
