#!/usr/bin/env bash
# Gives documents that schema_gen_file writes by --any-of and by --openapi to programs that go by the letter of the standards:
# python3-jsonschema of Debian, and the JSON Schema of OpenAPI documents in its package openapi-specification. By hand; no test rests
# on it.
#
#     tests_by_hand/strict_validators/check.sh
#
# The variable OPENAPI names that JSON Schema, where it lies elsewhere.
#
# The exit status is 0 where they agree with what is expected, 1 where they do not, 2 where there is an argument, and else that of
# schema_gen_file.
set -eu
if [ $# -gt 0 ]; then
    case $1 in
        -h | --help) sed -n '2,/^[^#]/s/^# \{0,1\}//p' "$0" && exit ;;
    esac
    echo "tests_by_hand/strict_validators/check.sh: $1: it takes no arguments, but for --help" >&2
    exit 2
fi
here=$(cd "$(dirname "${BASH_SOURCE[0]}")" && pwd)
cd "$here/../.."
folder=$(mktemp -d)
trap 'rm -rf "$folder"' EXIT

take() {
    ./schema_gen_file --any-of "$2" >"$folder/$1.any.json"
    ./schema_gen_file "$2" >"$folder/$1.one.json"
    cp "$3" "$folder/$1.values.json"
}

take shop examples/shop.rs examples/values.json
take jobs examples/jobs.rs examples/jobs_values.json
take overlap "$here/overlap.rs" "$here/overlap_values.json"
./schema_gen_file --any-of --openapi examples/openapi.json examples/shop.rs >"$folder/openapi.json"

# (the packages of Debian are those of its own Python)
python=/usr/bin/python3
[ -x "$python" ] || python=python3
"$python" "$here/check.py" "$folder" examples/openapi.json "${OPENAPI:-/usr/share/openapi-specification/schemas/v3.0/schema.json}"
