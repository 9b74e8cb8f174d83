#!/usr/bin/env bash
# Compares the stand-ins with the crates that they stand in for. By hand; no test rests on it.
#
#     tests_by_hand/stand_ins/check.sh
#
# The program beside this script writes and reads values of the crates' types with serde_json; each value that serde writes must be
# accepted by the component of its stand-in, and of those that serde does not read each that a schema can tell from the others must
# be refused. The crates are those that Debian packages, without a network, in /usr/share/cargo/registry, or in the folder that the
# variable REGISTRY names in the same form:
#
#     apt-get install librust-{ahash,arc-swap,arrayvec,bigdecimal,bstr+serde1,bytes,bytesize,camino,cargo-platform,chrono,chrono-tz,dashmap}-dev \
#         librust-{either,encoding-rs,enum-map,enumflags2,enumset,euclid,eui48,fnv,fxhash,half,hashlink,indexmap,ipnet,ipnetwork}-dev \
#         librust-{kstring,language-tags,linked-hash-map,lyon-geom,num-bigint,num-complex,num-rational,ordered-float}-dev \
#         librust-{parking-lot,pktparse,psa-crypto-sys,regex-automata,rust-decimal,rustc-hash,secrecy,semver,serde}-dev \
#         librust-{serde-bytes,serde-derive,serde-json,slab,slotmap,string-cache,time,toml,trust-dns-proto,trust-dns-resolver}-dev \
#         librust-{unic-langid,url,uuid,zeroize,zvariant}-dev
#
# Python needs the package jsonschema, with Draft 2020-12. The types of `time` and of `trust-dns-resolver` are compared by two sets of
# features. The variable PROGRAM names another program than ./schema_gen_file.
#
# The exit status is 0 where each value is accepted or refused as it should be, 1 where one is not, 2 where there is an argument or no
# component, and else that of cargo.
set -eu
if [ $# -gt 0 ]; then
    case $1 in
        -h | --help) sed -n '2,/^[^#]/s/^# \{0,1\}//p' "$0" && exit ;;
    esac
    echo "tests_by_hand/stand_ins/check.sh: $1: it takes no arguments, but for --help" >&2
    exit 2
fi
here=$(cd "$(dirname "${BASH_SOURCE[0]}")" && pwd)
registry=${REGISTRY:-/usr/share/cargo/registry}
folder=$(mktemp -d)
trap 'rm -rf "$folder"' EXIT

words=(--quiet --offline --config 'source.crates-io.replace-with="debian"' --config "source.debian.directory=\"$registry\"")
mkdir "$folder/program"
cp -r "$here/Cargo.toml" "$here/src" "$folder/program"
(cd "$folder/program" && cargo run "${words[@]}") >"$folder/values"
(cd "$folder/program" && cargo run "${words[@]}" --features time_texts,dns_protocols) |
    grep -E '"file":"(time|trust_dns_resolver)"' >"$folder/others"

cd "$here/../.."
python3 "$here/check.py" "${PROGRAM:-./schema_gen_file}" stand_ins "$folder/values" "$folder/others"
