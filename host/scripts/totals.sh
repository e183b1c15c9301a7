#!/usr/bin/env bash
# Drawn sticks, whole ones and such as are refused, printed by the tool: what grep, sed and wc count over the lines of a
# print must be its totals (request 08). Not a part of the gate; it needs `tools/archives.sh apfs`.
#
#     host/scripts/totals.sh [COUNT]     how many sticks are drawn, 300 where it is left out
set -eu -o pipefail
cd "$(dirname "$0")/.."

folder=$(mktemp -d)
trap 'rm -rf "$folder"' EXIT
apfs=${CARGO_TARGET_DIR:-target}/release/apfs
cargo run --release --offline --locked -q -p sticks --example drawn -- "$folder" "${1:-300}"
cargo build --release --offline --locked -q --features calls -p apfs

print=$folder/print
lines() { # START
    grep -c "^($1" "$print" || true
}
counted() {
    local digits
    digits=$(sed -n 's/^(data x\([0-9a-f]*\))$/\1/p' "$print" | tr -d '\n' | wc -c)
    echo "(total $(lines 'node ') $((digits / 2)) $(lines 'attr '))"
    echo ")"
}

prints=0 refused=0 nodes=0 packed=0 attributes=0
for image in "$folder"/*.img; do
    for volume in 0 1; do
        if ! "$apfs" --volume "$volume" list "$image" >"$print" 2>/dev/null; then
            refused=$((refused + 1))
            continue
        fi
        if [ "$(counted)" != "$(tail -n 2 "$print")" ] || [ "$(lines total)" -ne 1 ]; then
            echo "$(basename "$image"), volume $volume: $(tail -n 2 "$print" | head -n 1), and not $(counted | head -n 1)"
            echo "totals.sh: FAILED"
            exit 1
        fi
        prints=$((prints + 1))
        nodes=$((nodes + $(lines 'node ')))
        packed=$((packed + $(lines packed)))
        attributes=$((attributes + $(lines 'attr ')))
    done
done
echo "$prints prints, $refused refused; $nodes nodes, $packed of them packed, $attributes attributes"
[ "$prints" -gt 0 ] && [ "$packed" -gt 0 ] && [ "$attributes" -gt 0 ] || { echo "totals.sh: too few sticks"; exit 1; }
echo "totals.sh: all as counted"
