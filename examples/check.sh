#!/usr/bin/env bash
# Compares what README.md and docs/ quote with its files, then derives the examples and compares each document with the one beside
# them by bytes.
#
#     examples/check.sh
#
# These are examples/order.rs as a whole file; the sources of two services, examples/shop.rs and examples/jobs.rs, with their configurations and as whole files without
# one; examples/generics.rs; as whole files examples/aliases.rs with its configuration and examples/uploads.rs with stand-ins; and
# the OpenAPI document of the shop, of which --check is asked, too, whether it is still that.
#
# The exit status is 0 where all are equal, 1 where one differs, 2 where there is an argument, and else the program's own.
set -u
if [ $# -gt 0 ]; then
    case $1 in
        -h | --help) sed -n '2,/^[^#]/s/^# \{0,1\}//p' "$0" && exit ;;
    esac
    echo "examples/check.sh: $1: it takes no arguments, but for --help" >&2
    exit 2
fi
cd "$(dirname "${BASH_SOURCE[0]}")/.." || exit 1

found=$(mktemp) || exit 1
trap 'rm -f "$found"' EXIT

# Checks that the first text of a language in a section of a document is that of a file; of JSON the lines are one.
quoted() {
    sed -n "/^## $2\$/,/^## /{/^\`\`\`$3\$/,/^\`\`\`\$/p}" "$1" | sed '1d;/^```$/,$d' > "$found"
    if [ "$3" = json ]; then
        text=$(tr -d '\n' < "$found") && echo "$text" > "$found"
    fi
    if ! diff "$found" "$4"; then
        echo "examples/check.sh: $1 quotes another text than $4" >&2
        exit 1
    fi
    echo "examples/check.sh: $1 quotes $4"
}

quoted README.md "First run" rust examples/order.rs
quoted README.md "First run" json examples/order_components.json
quoted docs/REFERENCE.md Generics rust examples/generics.rs

# Compares what a program wrote, behind its exit status, with the components of the source.
compare() {
    if [ "$1" -ne 0 ]; then
        echo "examples/check.sh: $2 ended with exit status $1 for $3" >&2
        exit "$1"
    fi
    if ! cmp "$found" "$4"; then
        echo "examples/check.sh: the document that $2 writes of $3 is another than $4" >&2
        exit 1
    fi
    echo "examples/check.sh: $2 writes $4 of $3"
}

# Checks a source with its configuration and its components.
check() {
    ./schema_gen derive --config "$2" < "$1" > "$found"
    compare $? schema_gen "$1" "$3"
    ./schema_gen_file "$1" > "$found"
    compare $? schema_gen_file "$1" "$3"
}

./schema_gen_file --serde examples/order.rs > "$found"
compare $? schema_gen_file examples/order.rs examples/order_components.json
./schema_gen derive < examples/generics.rs > "$found"
compare $? schema_gen examples/generics.rs examples/generics_components.json
./schema_gen_file --config examples/aliases_config.json examples/aliases.rs > "$found"
compare $? schema_gen_file examples/aliases.rs examples/aliases_components.json
./schema_gen_file --serde --stand-ins examples/uploads.rs > "$found"
compare $? schema_gen_file examples/uploads.rs examples/uploads_components.json
check examples/shop.rs examples/config.json examples/components.json
check examples/jobs.rs examples/jobs_config.json examples/jobs_components.json

./schema_gen_file --any-of --pretty --openapi examples/openapi.json examples/shop.rs > "$found"
compare $? schema_gen_file examples/shop.rs examples/shop_openapi.json
./schema_gen_file --any-of --openapi examples/openapi.json --check examples/shop_openapi.json examples/shop.rs > "$found"
compare $? "schema_gen_file --check" examples/shop_openapi.json /dev/null
