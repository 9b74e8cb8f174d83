#!/usr/bin/env bash
# Sources of at most 1,000 structs or enums from 64 KiB to 1 MiB, each twice the one before: the time that the program takes for each,
# its peak memory, the ratio of the time to that of the one before, and declarations per second. By hand; no test rests on it.
#
#     bench/derive.sh [ascending|descending|references|wide|documented|containers|inlined|attributed|aliased|enums|generics|written]
#
# The argument is the form of the sources, references where there is none. ./build makes the program, unless the variable PROGRAM
# names one.
#
# Of aliased each field's type is an alias of the configuration, and each alias has another in its text or is in that of another.
# Of generics a group is a struct and two generic structs of which it uses three instances: 4 instances in 1 KiB, so 4,096 in 1 MiB.
# Of written the instances of the same groups are structs of the same names; its last source would be longer than 1 MiB, and is left out.
#
# The exit status is 0 where all was measured, 1 where the program fails, 2 where there is no such form, and else that of ./build.
set -eu
form=${1:-references}
case $#:$form in
    *:-h | *:--help) sed -n '2,/^[^#]/s/^# \{0,1\}//p' "$0" && exit ;;
    [01]:ascending | [01]:descending | [01]:references | [01]:wide | [01]:documented | [01]:containers) ;;
    [01]:inlined | [01]:attributed | [01]:aliased | [01]:enums | [01]:generics | [01]:written) ;;
    *)
        echo "bench/derive.sh: $*: it takes one form of sources; --help says which there are" >&2
        exit 2
        ;;
esac
here=$(cd "$(dirname "$0")/.." && pwd)
program=${PROGRAM:-$here/crates/schema_gen_cli/out/schema_gen_cli}
[ -x "$program" ] || "$here/build"
folder=$(mktemp -d)
trap 'rm -rf "$folder"' EXIT
python3 - "$program" "$folder" "$form" <<'PY'
import json, os, subprocess, sys, time

program, folder, form = sys.argv[1:]

def struct(name, fields):
    if form == "documented":
        lines = "".join("    /// What it is\n    ///   in short.\n    pub(crate) %s: %s, // kept\n" % f for f in fields)
        return "use std::fmt;\n\n/** A thing of the shop. */\npub struct %s {\n%s}\n\n" % (name, lines)
    if form == "attributed":
        lines = "".join("    %s\n    pub %s: %s,\n" % ((attributes[at % len(attributes)],) + f) for at, f in enumerate(fields))
        return "#[derive(Debug, Deserialize, Serialize)]\n#[serde(rename_all = \"camelCase\", deny_unknown_fields)]\npub struct %s {\n%s}\n\n" % (name, lines)
    return "pub struct %s {\n%s}\n\n" % (name, "".join("    pub %s: %s,\n" % f for f in fields))

taggings = ["", "#[serde(tag = \"kind\")]\n", "#[serde(tag = \"kind\", content = \"value\")]\n", "#[serde(untagged)]\n"]

# Four variants with the fields of a struct: one without fields, one with a content, and two with named fields. The four
# representations take turns.
def enum(name, i, fields):
    named = lambda some: "{\n%s    }" % "".join("        %s: %s,\n" % f for f in some)
    variants = ["Empty", "Content(Box<Item%04d>)" % (i // 2), "Small " + named(fields[:16]), "Large " + named(fields[16:])]
    return "%spub enum %s {\n%s}\n\n" % (taggings[i % 4], name, "".join("    %s,\n" % v for v in variants))

types = ("Id", "Name", "Tags", "Size") if form == "aliased" else ("u64", "Option<String>", "Vec<Vec<String>>", "i32")
attributes = [
    "#[serde(default, skip_serializing_if = \"Option::is_none\")]",
    "#[validate(length(min = 1))] #[serde(alias = \"other\")]",
    "#[deprecated(note = \"use another\")]",
    "#[serde(skip)]",
]

# A group of four instances, as generic declarations or with each instance written out.
def group(i):
    plain = [("id_%d" % k, ("u64", "Option<String>", "Vec<bool>", "i32")[k % 4]) for k in range(12)]
    item, page, node = "Item%04d" % i, "Page%04d" % i, "Node%04d" % i
    def paged(name, of):
        return struct(name, [("items", "Vec<%s>" % of), ("first", of), ("next", "Option<Box<%s>>" % name)] + plain[:6])
    def tree(name, of):
        return struct(name, [("value", of), ("children", "Vec<%s>" % name)] + plain)
    other = "Item%04d" % (i // 2)
    if form == "generics":
        uses = [("page", "%s<%s>" % (page, other)), ("numbers", "%s<u64>" % page), ("tree", "%s<String>" % node)]
        rest = [paged(page + "<T>", "T"), tree(node + "<T>", "T")]
    else:
        uses = [("page", "%s_%s" % (page, other)), ("numbers", page + "_u64"), ("tree", node + "_String")]
        rest = [paged("%s_%s" % (page, other), other), paged(page + "_u64", "u64"), tree(node + "_String", "String")]
    return "".join([struct(item, uses + plain)] + rest)

def configuration():
    if form in ("generics", "written"):
        return json.dumps({"limit": 4096})
    if form == "aliased":
        return json.dumps({"limit": 4096, "aliases": {"Id": "Number", "Number": "u64", "Name": "Option<Text>", "Text": "String", "Tags": "Vec<Words>", "Words": "Vec<Text>", "Size": "Small", "Small": "i32"}})
    names = ["%s_%d" % (stem, k) for stem in ("id", "name", "tags", "size") for k in range(12)]
    rows = [{"rule": "camelCase", "place": "field", "from": name, "to": name.replace("_", "")} for name in names]
    return json.dumps({"renames": rows})

def source(size):
    parts, length, i = [], 0, 0
    if form in ("generics", "written"):
        return "".join(group(i) for i in range(size // 1024))
    if form == "wide":
        fields = []
        while length < size - 80:
            fields.append(("field_%06d" % i, ("u64", "Option<String>", "Vec<bool>")[i % 3]))
            length += len("    pub %s: %s,\n" % fields[-1])
            i += 1
        return struct("Wide", fields)
    while True:
        number = 9999 - i if form == "descending" else i
        fields = []
        for k in range(12):
            fields += [("%s_%d" % (stem, k), ty) for stem, ty in zip(("id", "name", "tags", "size"), types)]
            if form in ("references", "documented"):
                fields += [("owner_%d" % k, "Item%04d" % (i // 2)), ("next_%d" % k, "Option<Item%04d>" % max(0, i - 1)), ("all_%d" % k, "Vec<Item%04d>" % (i // 3))]
            if form == "containers":
                fields += [("pair_%d" % k, "(i32, (String, Option<bool>))"), ("set_%d" % k, "BTreeSet<String>"), ("map_%d" % k, "HashMap<String, Vec<Item%04d>>" % (i // 2))]
            if form == "inlined" and i % 4:
                fields += [("pair_%d" % k, "(u8, Item%04d)" % (i - i % 4))]
        name = "Item%04d" % number
        part = enum(name, i, fields) if form == "enums" else struct(name, fields)
        if length + len(part) > size:
            return "".join(parts)
        parts.append(part)
        length += len(part)
        i += 1

def run(path):
    best, peak = None, 0
    for _ in range(5):
        with open(path, "rb") as text, open(os.devnull, "wb") as nothing:
            start = time.perf_counter()
            child = subprocess.Popen([program, *words], stdin=text, stdout=nothing)
            _, status, usage = os.wait4(child.pid, 0)
            took = time.perf_counter() - start
        if status != 0:
            sys.exit("the program ended with %d" % os.waitstatus_to_exitcode(status))
        best = took if best is None else min(best, took)
        peak = max(peak, usage.ru_maxrss)
    return best, peak / 1024

words = ["derive"]
if form in ("attributed", "aliased", "generics", "written"):
    words += ["--config", os.path.join(folder, "config.json")]
    with open(words[-1], "w") as file:
        file.write(configuration())

before = None
print("%10s %12s %10s %12s %8s %16s" % ("bytes", "declarations", "seconds", "peak MiB", "ratio", "declarations/s"))
for size in (65536 << n for n in range(5)):
    path = os.path.join(folder, "source")
    text = source(size)
    if len(text) > 1 << 20:
        break
    with open(path, "w") as file:
        file.write(text)
    took, peak = run(path)
    many = text.count("pub struct ") + text.count("pub enum ")
    ratio = "" if before is None else "%.2f" % (took / before)
    print("%10d %12d %10.3f %12.1f %8s %16.0f" % (len(text), many, took, peak, ratio, many / took))
    before = took
PY
