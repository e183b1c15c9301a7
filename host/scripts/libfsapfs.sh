#!/usr/bin/env bash
# Sticks read by libfsapfs (Debian's libfsapfs-utils), which nobody here wrote, and listed by the port: the names at
# their places must be the same, and the bytes of files where libfsapfs gives their MD5. Not a part of the gate; it
# needs `tools/archives.sh apfs`.
#
#     host/scripts/libfsapfs.sh [COUNT]     how many sticks are drawn, 200 where it is left out
set -eu -o pipefail
cd "$(dirname "$0")/.."

command -v fsapfsinfo >/dev/null || { echo "fsapfsinfo is not installed (Debian: apt-get install libfsapfs-utils)"; exit 2; }

folder=$(mktemp -d)
trap 'rm -rf "$folder"' EXIT
cargo run --release --offline --locked -q -p sticks --example proper -- "$folder" "${1:-200}"
if PATH=$PATH:/usr/sbin:/sbin command -v mkapfs >/dev/null; then
    truncate -s 128M "$folder/mkapfs.img"
    PATH=$PATH:/usr/sbin:/sbin mkapfs -L "Round 7" "$folder/mkapfs.img"
else
    echo "mkapfs is not installed (Debian: apt-get install apfsprogs): no stick of its own"
fi
cargo build --release --offline --locked -q --features calls -p apfs
python3 scripts/same_names.py "${CARGO_TARGET_DIR:-target}/release/apfs" "$folder"/*.img
