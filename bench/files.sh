#!/usr/bin/env bash
# Sources of 2.5, 5, 10 and 20 MB in 50, 100, 200 and 400 files, of which a twentieth derives serde's traits and the rest is
# functions: the time of `schema_gen_file --serde` from the files to the document, its peak memory, the ratio of the time to that of
# the half before, and beside it the time that `cat` takes for the same files, and the time and the memory of bench/plain for the
# declarations alone, in one file; then the time of the largest with options. By hand; no test rests on it.
#
#     bench/files.sh
#
# ./build makes the program, unless the variable PROGRAM names one, and bench/plain/build the other.
#
# The exit status is 0 where all was measured, 1 where a program fails, 2 where there is an argument, and else that of ./build or of
# cargo.
set -eu
if [ $# -gt 0 ]; then
    case $1 in
        -h | --help) sed -n '2,/^[^#]/s/^# \{0,1\}//p' "$0" && exit ;;
    esac
    echo "bench/files.sh: $1: it takes no arguments, but for --help" >&2
    exit 2
fi
here=$(cd "$(dirname "$0")/.." && pwd)
program=${PROGRAM:-$here/crates/schema_gen_file/out/schema_gen_file}
[ -x "$program" ] || "$here/build"
folder=$(mktemp -d)
trap 'rm -rf "$folder"' EXIT
"$here/bench/plain/build" "$folder"
python3 - "$program" "$folder" <<'PY'
import os, subprocess, sys, time

program, folder = sys.argv[1:]
plain = f"{folder}/plain/target/release/plain"

types = ["u64", "Option<String>", "Vec<Vec<String>>", "i32", "bool"]

def item(at):
    fields = "".join(f"    /// What the field is.\n    pub field_{k}: {types[(at + k) % len(types)]},\n" for k in range(20))
    before = f"    pub before: Option<Box<Item{at - 1}>>,\n" if at else ""
    return f"/// A thing of the shop.\n#[derive(Debug, Clone, Serialize, Deserialize)]\n#[serde(rename_all = \"camelCase\")]\npub struct Item{at} {{\n{before}{fields}}}\n\n"

body = "    let whole = (0..count).map(|at| text[at..].trim().len() + 1).sum::<usize>(); // of each end\n" * 8

def function(at):
    return f"/// Counts what stands there.\nfn count_{at}(text: &str, count: usize) -> usize {{\n{body}    println!(\"{{}} {{{{}}}} of {{whole}}\", '{{');\n    whole\n}}\n\n"

def file_of(first, size):
    parts, items, length, own, at = [], [], 0, 0, first
    while length < size:
        if own * 20 <= length:
            part = item(at)
            at += 1
            own += len(part)
            items.append(part)
        else:
            part = function(len(parts))
        parts.append(part)
        length += len(part)
    return "".join(parts), "".join(items), at

def run(words, path=os.devnull):
    best, peak = None, 0
    for _ in range(5):
        with open(os.devnull, "wb") as nothing, open(path, "rb") as given:
            start = time.perf_counter()
            child = subprocess.Popen(words, stdin=given, stdout=nothing)
            _, status, usage = os.wait4(child.pid, 0)
            took = time.perf_counter() - start
        if status != 0:
            sys.exit(f"{words[0]} ended with {os.waitstatus_to_exitcode(status)}")
        best = took if best is None else min(best, took)
        peak = max(peak, usage.ru_maxrss)
    return best, peak / 1024

paths, declared, first = [], [], 0
for number in range(400):
    paths.append(f"{folder}/file_{number}.rs")
    text, items, first = file_of(first, 50_000)
    declared.append(items)
    with open(paths[-1], "w") as file:
        file.write(text)
before = None
print("%6s %10s %10s %10s %8s %10s %10s %10s" % ("files", "bytes", "seconds", "peak MiB", "ratio", "cat", "plain", "plain MiB"))
for many in (50, 100, 200, 400):
    took, peak = run([program, "--serde", *paths[:many]])
    ratio = "" if before is None else "%.2f" % (took / before)
    with open(f"{folder}/declared.rs", "w") as file:
        file.write("".join(declared[:many]))
    size, cat, other = sum(os.path.getsize(p) for p in paths[:many]), run(["cat", *paths[:many]])[0], run([plain], f"{folder}/declared.rs")
    print("%6d %10d %10.3f %10.1f %8s %10.3f %10.3f %10.1f" % (many, size, took, peak, ratio, cat, *other))
    before = took

# with each option that changes what is done with the document, and the ratio of the time to that of half of the files
with open(f"{folder}/openapi.json", "w") as file:
    file.write('{"openapi":"3.1.0","info":{"title":"Bench","version":"1"},"paths":{}}')
with open(f"{folder}/document.json", "w") as file:
    subprocess.run([program, "--serde", *paths], stdout=file, check=True)
options = {
    "--any-of": ["--any-of"],
    "--pretty": ["--pretty"],
    "--openapi": ["--openapi", f"{folder}/openapi.json"],
    "--check": ["--check", f"{folder}/document.json"],
    "--skip-refused": ["--skip-refused"],
}
print("\n%-16s %10s %10s %8s" % ("of all files", "seconds", "peak MiB", "ratio"))
for name, words in options.items():
    half = 0 if name == "--check" else run([program, "--serde", *words, *paths[:200]])[0]
    took, peak = run([program, "--serde", *words, *paths])
    print("%-16s %10.3f %10.1f %8s" % (name, took, peak, "%.2f" % (took / half) if half else ""))
PY
