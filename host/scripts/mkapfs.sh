#!/usr/bin/env bash
# Makes containers with mkapfs (Debian's apfsprogs), which nobody here wrote, and opens each by the
# oracle and, after `tools/archives.sh apfs`, by the port. Not a part of the gate.
#
#     host/scripts/mkapfs.sh [FOLDER]     the containers are kept in FOLDER, if one is named
set -eu -o pipefail
cd "$(dirname "$0")/.."

PATH=$PATH:/usr/sbin:/sbin
command -v mkapfs >/dev/null || { echo "mkapfs is not installed (Debian: apt-get install apfsprogs)"; exit 2; }

if [ $# -gt 0 ]; then
    mkdir -p "$1"
    folder=$(cd "$1" && pwd)
else
    folder=$(mktemp -d)
    trap 'rm -rf "$folder"' EXIT
fi

container() { # NAME MEGABYTES ARGUMENTS..
    local file=$folder/$1.img size=$2
    shift 2
    rm -f "$file"
    truncate -s "${size}M" "$file"
    mkapfs "$@" "$file"
    files+=("$file")
}

files=()
# mkapfs makes none under 128 MiB.
container plain 128
container labelled 130 -L "Round 7"
container sensitive 150 -s -L sensitive
container sensitive-both 200 -s -z -L both
container large 600 -L large

features=()
if [ -f "${APFS_STATICLIB_DIR:-../target/staticlib}/libapfs.a" ]; then
    features=(--features apfs)
else
    echo "no libapfs.a: the oracle is asked alone"
fi
cargo run --release --offline --locked -q "${features[@]}" -p compare -- open "${files[@]}"
