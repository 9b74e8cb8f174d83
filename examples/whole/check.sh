#!/usr/bin/env bash
# Derives each file of Rust in examples/whole, of the declarations that serde's derives reach, and compares its document with the
# one beside it by bytes.
#
#     examples/whole/check.sh
#
# The exit status is 0 where all are equal, 1 where one differs, 2 where there is an argument, and else that of schema_gen_file.
set -u
if [ $# -gt 0 ]; then
    case $1 in
        -h | --help) sed -n '2,/^[^#]/s/^# \{0,1\}//p' "$0" && exit ;;
    esac
    echo "examples/whole/check.sh: $1: it takes no arguments, but for --help" >&2
    exit 2
fi
cd "$(dirname "${BASH_SOURCE[0]}")/../.." || exit 1

found=$(mktemp) || exit 1
trap 'rm -f "$found"' EXIT

# Checks a file with its document.
check() {
    ./schema_gen_file --serde "$1" > "$found"
    local status=$?
    if [ "$status" -ne 0 ]; then
        echo "examples/whole/check.sh: schema_gen_file ended with exit status $status for $1" >&2
        exit "$status"
    fi
    if ! cmp "$found" "$2"; then
        echo "examples/whole/check.sh: the document of $1 is another than $2" >&2
        exit 1
    fi
    echo "examples/whole/check.sh: the document of $1 is $2"
}

for file in examples/whole/*.rs; do
    check "$file" "${file%.rs}.json"
done
