#!/usr/bin/env bash
# Shows for a type of each line of the tables of docs/SERDE.md ("What is read over, where the JSON is another", "Reading and writing",
# "Types") values that serde itself writes and reads, whether the type's component accepts them, and what schema_gen_file warns of
# there. By hand; no test rests on it. A warning is owed at each line of the first table and at those of the others that crate
# `warnings` has, and wherever else a component rejects a value, unless the tables say so of every type of the form.
#
#     tests_by_hand/warned_values/check.sh
#
# serde and serde_json are those of Debian, where its packages librust-serde-dev, librust-serde-derive-dev and librust-serde-json-dev
# are there, or in the folder that the variable REGISTRY names in the same form, and else those of crates.io. Of serde 1.0.152 four
# types have no values, for which it has no attribute or no JSON. They are only checked to be warned of.
#
# The exit status is 0 where each warning that is owed is there, 1 where one is not, 2 where there is an argument, and else that of
# schema_gen_file or of cargo.
set -eu
if [ $# -gt 0 ]; then
    case $1 in
        -h | --help) sed -n '2,/^[^#]/s/^# \{0,1\}//p' "$0" && exit ;;
    esac
    echo "tests_by_hand/warned_values/check.sh: $1: it takes no arguments, but for --help" >&2
    exit 2
fi
here=$(cd "$(dirname "${BASH_SOURCE[0]}")" && pwd)
registry=${REGISTRY:-/usr/share/cargo/registry}
folder=$(mktemp -d)
trap 'rm -rf "$folder"' EXIT

words=(--features newer)
if compgen -G "$registry/serde_derive-1.*" >/dev/null && compgen -G "$registry/serde_json-1.*" >/dev/null; then
    version=$(basename "$(printf '%s\n' "$registry"/serde-1.* | sort -V | tail -n 1)")
    # (the versions that are known to lack and to have it)
    [ "$(printf '%s\n' "$version" serde-1.0.217 | sort -V | head -n 1)" = serde-1.0.217 ] || words=()
    words+=(--offline --config 'source.crates-io.replace-with="debian"' --config "source.debian.directory=\"$registry\"")
    echo "over $version"
fi
mkdir "$folder/program"
cp -r "$here/Cargo.toml" "$here/src" "$folder/program"
(cd "$folder/program" && cargo run --quiet "${words[@]}") >"$folder/values"

cd "$here/../.."
types=tests_by_hand/warned_values/src/types.rs
status=0
./schema_gen_file "$types" >"$folder/document" 2>"$folder/warnings" || status=$?
if [ "$status" -ne 0 ]; then
    cat "$folder/warnings" >&2
    exit "$status"
fi
python3 "$here/check.py" "$types" "$folder/values" "$folder/document" "$folder/warnings"
