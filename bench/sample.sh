#!/usr/bin/env bash
# The source of `schema_gen sample N`, for N of 125, 250, 500 and 1000: structs, generic structs and tagged enums, each of which refers
# to the next. How many bytes it has; the seconds that the program takes for `sample N` and for `derive` on the same text, and those
# that bench/plain takes for the text, over syn and serde_json and with nothing proved; what parts of the last the first two are; and
# the peak of memory of the three. Of the times each is the least of nine runs, in turns. Before that the documents are compared. By
# hand; no test rests on it.
#
# Then rustc beside `sample 1000`: the seconds that rustc takes to expand serde's two derives on each declaration of the same text,
# its pass macro_expand_crate, the least of three runs, and what part of it the program takes. Once the derives are as cargo builds
# them, which is not optimised, and once they are optimised. This takes minutes. Where Debian's packages librust-serde-dev and
# librust-serde-derive-dev are not there, rustc is left out.
#
#     bench/sample.sh
#
# ./build makes the program, unless the variable PROGRAM names one, bench/plain/build the other, and cargo serde.
#
# The exit status is 0 where all was measured, but for rustc where it is left out, 1 where a program fails or the documents differ, 2
# where there is an argument, and else that of ./build or of cargo.
set -eu
if [ $# -gt 0 ]; then
    case $1 in
        -h | --help) sed -n '2,/^[^#]/s/^# \{0,1\}//p' "$0" && exit ;;
    esac
    echo "bench/sample.sh: $1: it takes no arguments, but for --help" >&2
    exit 2
fi
here=$(cd "$(dirname "$0")/.." && pwd)
program=${PROGRAM:-$here/crates/schema_gen_cli/out/schema_gen_cli}
[ -x "$program" ] || "$here/build"
folder=$(mktemp -d)
trap 'rm -rf "$folder"' EXIT
"$here/bench/plain/build" "$folder"
registry=/usr/share/cargo/registry
levels=()
if compgen -G "$registry/serde-1.*" >/dev/null && compgen -G "$registry/serde_derive-1.*" >/dev/null; then
    levels=(0 3)
    mkdir -p "$folder/serde/src"
    touch "$folder/serde/src/lib.rs"
    cat >"$folder/serde/Cargo.toml" <<'TOML'
[package]
name = "with_serde"
version = "0.1.0"
edition = "2021"

[dependencies]
serde = { version = "1", features = ["derive"] }
TOML
    sources=(--offline --config 'source.crates-io.replace-with="debian"' --config "source.debian.directory=\"$registry\"")
    for level in "${levels[@]}"; do
        export CARGO_PROFILE_RELEASE_BUILD_OVERRIDE_OPT_LEVEL=$level
        (cd "$folder/serde" && cargo build --release --quiet --target-dir "$level" "${sources[@]}")
    done
fi
python3 - "$program" "$folder" ${levels[@]+"${levels[@]}"} <<'PY'
import glob, json, os, re, subprocess, sys, time

program, folder, *levels = sys.argv[1:]
path = folder + "/source"

def source(many):
    def declaration(i):
        j = (i + 1) % many
        next_one = ("S%d", "G%d<bool>", "E%d")[j % 3] % j
        return (
            "struct S%d { id: u64, name: Option<String>, next: Option<Box<%s>> }\n",
            "struct G%d<T> { item: T, next: Option<Box<%s>> }\n",
            "#[serde(tag = \"t\")] enum E%d { A, B { next: Vec<%s> } }\n",
        )[i % 3] % (i, next_one)
    return "".join(map(declaration, range(many)))

def failed(words, status):
    sys.exit("%s ended with %d" % (" ".join(words), status))

# What the program writes, and its peak of memory. The system counts in the peak what the process had that started the program: so
# a small shell starts it, and Python, which has more, only asks afterwards.
def written(words):
    ask = "import resource; print(resource.getrusage(resource.RUSAGE_CHILDREN).ru_maxrss)"
    line = '"$@" >"$0" && exec "$PYTHON" -c "$ASK"'
    with open(path, "rb") as text:
        shell = ["sh", "-c", line, folder + "/written", *words]
        run = subprocess.run(shell, stdin=text, stdout=subprocess.PIPE, env={**os.environ, "PYTHON": sys.executable, "ASK": ask})
    if run.returncode != 0:
        failed(words, run.returncode)
    with open(folder + "/written", "rb") as file:
        return file.read(), int(run.stdout) / 1024

def seconds(words):
    with open(path, "rb") as text, open(folder + "/written", "wb") as document:
        start = time.perf_counter()
        status = subprocess.Popen(words, stdin=text, stdout=document).wait()
        took = time.perf_counter() - start
    if status != 0:
        failed(words, status)
    return took

form = "%12s %8s %10s %10s %10s %14s %14s %22s"
print(form % ("declarations", "bytes", "sample", "derive", "plain", "sample/plain", "derive/plain", "peak MiB of each"))
for many in (125, 250, 500, 1000):
    with open(path, "w") as file:
        file.write(source(many))
    all_words = [program, "sample", str(many)], [program, "derive"], [folder + "/plain/target/release/plain"]
    (said, document, other), peaks = zip(*map(written, all_words))
    if document != other:
        sys.exit("the documents differ")
    right = "declarations %d components %d bytes %d\n" % (many, len(json.loads(document)["components"]["schemas"]), len(document))
    if said != right.encode():
        sys.exit("sample %d says %r, and the document of its source is %r" % (many, said.decode(), right))
    sample, derive, plain = map(min, zip(*([seconds(words) for words in all_words] for _ in range(9))))
    times = ["%.4f" % it for it in (sample, derive, plain)] + ["%.2f" % (it / plain) for it in (sample, derive)]
    print(form % (many, os.path.getsize(path), *times, ", ".join("%.1f" % it for it in peaks)), flush=True)

# The chain of the declarations is longer than the types that rustc follows where no limit is given.
with open(folder + "/derived.rs", "w") as file:
    file.write("#![recursion_limit = \"4096\"]\n")
    file.writelines("#[derive(serde::Serialize, serde::Deserialize)] %s\n" % it for it in source(1000).splitlines())

def expansion(level):
    built = "%s/serde/%s/release/deps" % (folder, level)
    [library] = glob.glob(built + "/libserde-*.rlib")
    words = ["rustc", "-Z", "time-passes", "--emit=metadata", "--crate-type", "lib", "--edition", "2021", "--out-dir", folder]
    words += ["--extern", "serde=" + library, "-L", "dependency=" + built, folder + "/derived.rs"]
    run = subprocess.run(words, cwd=folder, env={**os.environ, "RUSTC_BOOTSTRAP": "1"}, stderr=subprocess.PIPE, text=True)
    took = re.search(r"^time: +([0-9.]+).*\smacro_expand_crate$", run.stderr, re.MULTILINE)
    if run.returncode != 0 or took is None:
        sys.stderr.write(run.stderr[-2000:])
        failed(words, run.returncode)
    return float(took[1])

print()
for level in levels:
    took = min(expansion(level) for _ in range(3))
    derives = {"0": "as cargo builds them", "3": "optimised"}[level]
    print("rustc, serde's derives %s: %.3f seconds, of which sample 1000 is %.4f" % (derives, took, sample / took), flush=True)
if not levels:
    print("rustc is left out: Debian's packages librust-serde-dev and librust-serde-derive-dev are not there")
PY
