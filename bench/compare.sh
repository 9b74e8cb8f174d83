#!/usr/bin/env bash
# The program beside bench/plain, which makes the same documents of plain structs over syn and serde_json, with nothing proved: the
# time by the clock and by the processor, and the peak of memory, of each and as parts of the plain program's. Of the times each is
# the least of nine runs, in turns. By hand; no test rests on it.
#
#     bench/compare.sh
#
# ./build makes the program, unless the variable PROGRAM names one, and bench/plain/build the other.
#
# The exit status is 0 where all was measured, 1 where a program fails or the documents differ, 2 where there is an argument, and else
# that of ./build or of cargo.
set -eu
if [ $# -gt 0 ]; then
    case $1 in
        -h | --help) sed -n '2,/^[^#]/s/^# \{0,1\}//p' "$0" && exit ;;
    esac
    echo "bench/compare.sh: $1: it takes no arguments, but for --help" >&2
    exit 2
fi
here=$(cd "$(dirname "$0")/.." && pwd)
program=${PROGRAM:-$here/crates/schema_gen_cli/out/schema_gen_cli}
[ -x "$program" ] || "$here/build"
folder=$(mktemp -d)
trap 'rm -rf "$folder"' EXIT
"$here/bench/plain/build" "$folder"
python3 - "$program" "$folder" <<'PY'
import os, subprocess, sys, time

program, folder = sys.argv[1:]
ours, theirs = [program, "derive"], [folder + "/plain/target/release/plain"]
types = ["u64", "Option<String>", "Vec<u32>", "bool", "Option<Vec<i64>>", "String"]

def source(many):
    def struct(i):
        fields = ["field_%d: %s" % (k, types[(i + k) % 6]) for k in range(44)]
        fields.append("next: Option<S%d>" % ((i + 1) % many))
        return "pub struct S%d { %s }\n" % (i, ", ".join(fields))
    return "".join(map(struct, range(many)))

def run(words, path, out):
    with open(path, "rb") as text, open(out, "wb") as document:
        start = time.perf_counter()
        child = subprocess.Popen(words, stdin=text, stdout=document)
        _, status, usage = os.wait4(child.pid, 0)
        took = time.perf_counter() - start
    if status != 0:
        sys.exit("%s ended with %d" % (words[0], os.waitstatus_to_exitcode(status)))
    return took, usage.ru_utime + usage.ru_stime, usage.ru_maxrss / 1024

def same(a, b):
    with open(a, "rb") as one, open(b, "rb") as other:
        return one.read() == other.read()

path, before = folder + "/source", None
print("%8s %10s %22s %22s %22s %8s" % ("structs", "bytes", "seconds", "processor seconds", "peak MiB", "growth"))
for many in (125, 250, 500, 1000):
    with open(path, "w") as file:
        file.write(source(many))
    runs = [(run(ours, path, folder + "/ours"), run(theirs, path, folder + "/theirs")) for _ in range(9)]
    if not same(folder + "/ours", folder + "/theirs"):
        sys.exit("the documents differ")
    least = [[min(it[who][what] for it in runs) for who in (0, 1)] for what in (0, 1, 2)]
    parts = ["%.3f of %.3f: %.2f" % (a, b, a / b) for a, b in least[:2]] + ["%.1f of %.1f: %.2f" % (*least[2], least[2][0] / least[2][1])]
    growth = "" if before is None else "%.2f" % (least[0][0] / before)
    print("%8d %10d %22s %22s %22s %8s" % (many, os.path.getsize(path), *parts, growth), flush=True)
    before = least[0][0]
PY
