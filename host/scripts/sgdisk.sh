#!/usr/bin/env bash
# Partition tables made by sgdisk (Debian's gdisk), which nobody here wrote, around drawn containers: the part that is
# read must be the one that `sgdisk -i` shows, and the port must list the container in it as it lists the container by
# itself; so also by the backup, when the primary header is zeroed. Not a part of the gate; it needs
# `tools/archives.sh apfs`.
#
#     host/scripts/sgdisk.sh [COUNT]     how many containers are drawn, 8 where it is left out
set -eu -o pipefail
cd "$(dirname "$0")/.."

PATH=$PATH:/usr/sbin:/sbin
command -v sgdisk >/dev/null || { echo "sgdisk is not installed (Debian: apt-get install gdisk)"; exit 2; }

folder=$(mktemp -d)
trap 'rm -rf "$folder"' EXIT
target=${CARGO_TARGET_DIR:-target}/release
apfs=$target/apfs
cargo run --release --offline --locked -q -p sticks --example proper -- "$folder" "${1:-8}"
cargo build --release --offline --locked -q -p sticks --example part
asked=0
if [ -f "${APFS_STATICLIB_DIR:-../target/staticlib}/libapfs.a" ]; then
    cargo build --release --offline --locked -q --features calls -p apfs
    asked=1
else
    echo "no libapfs.a: only document 02's account of the part is held against sgdisk"
fi

fail() { # IMAGE WORDS
    echo "$1: $2"
    echo "sgdisk.sh: FAILED"
    exit 1
}
zeroed() { # IMAGE SECTOR
    dd if=/dev/zero of="$1" bs=512 seek="$2" count=1 conv=notrunc status=none
}
same() { # IMAGE WORDS EXPECTED GOT
    [ "$3" = "$4" ] || fail "$1" "$2: $4 and not $3"
}

# The part is where sgdisk shows the partition of that number, and holds the container.
found() { # IMAGE NUMBER CONTAINER
    local shown first last
    shown=$(sgdisk -i "$2" "$1")
    grep -q 7C3457EF-0000-11AA-AA11-00306543ECAC <<<"$shown" || fail "$1" "no partition $2 of the type: $shown"
    first=$(sed -n 's/^First sector: \([0-9]*\) .*/\1/p' <<<"$shown")
    last=$(sed -n 's/^Last sector: \([0-9]*\) .*/\1/p' <<<"$shown")
    read_at "$1" "$((first * 512)) $(((last - first + 1) * 512))" "$3"
}
read_at() { # IMAGE PART CONTAINER
    same "$1" "document 02's part" "$2" "$("$target/examples/part" "$1")"
    checked=$((checked + 1))
    [ "$asked" -eq 1 ] || return 0
    read -r offset length <<<"$2"
    same "$1" "the port's part" "$length bytes from byte $offset on" "$("$apfs" stat "$1" | sed -n 's/^partition  *//p')"
    "$apfs" list "$1" >"$folder/listed" || fail "$1" "not listed"
    "$apfs" list "$3" | cmp -s - "$folder/listed" || fail "$1" "another listing than the container's"
}
refused() { # IMAGE NUMBER
    same "$1" "document 02" "refused with $2" "$("$target/examples/part" "$1")"
    checked=$((checked + 1))
    [ "$asked" -eq 1 ] || return 0
    ! "$apfs" ls "$1" >"$folder/listed" 2>&1 || fail "$1" "not refused by the port"
    grep -q "(refusal $2)" "$folder/listed" || fail "$1" "refused otherwise by the port: $(cat "$folder/listed")"
}

# Each stick: its table's arguments; %s is the container's length in sectors, N the number of its partition.
stick() { # CONTAINER N ARGUMENTS..
    local container=$1 number=$2 image=$folder/stick sectors first backup part
    shift 2
    sectors=$((($(stat -c %s "$container") + 511) / 512))
    rm -f "$image"
    truncate -s $(((sectors + 8192) * 512)) "$image"
    sgdisk "${@//%s/$sectors}" "$image" >"$folder/sgdisk" || fail "$image" "$(cat "$folder/sgdisk")"
    first=$(sgdisk -i "$number" "$image" | sed -n 's/^First sector: \([0-9]*\) .*/\1/p')
    dd if="$container" of="$image" bs=512 seek="$first" conv=notrunc status=none
    found "$image" "$number" "$container"
    part=$("$target/examples/part" "$image")

    # By the backup alone, at the end of an image that is not of whole sectors too; and by neither.
    zeroed "$image" 1
    read_at "$image" "$part" "$container"
    printf '%0300d' 0 >>"$image"
    read_at "$image" "$part" "$container"
    backup=$((sectors + 8192 - 1))
    zeroed "$image" "$backup"
    refused "$image" 11
}
without() { # CONTAINER
    local image=$folder/without
    rm -f "$image"
    truncate -s 8M "$image"
    sgdisk -n 1:0:0 -t 1:af00 "$image" >"$folder/sgdisk"
    dd if="$1" of="$image" bs=512 seek=2048 conv=notrunc status=none
    refused "$image" 12
}

checked=0
sticks=0
for container in "$folder"/*.img; do
    stick "$container" 1 -n 1:0:+%s -t 1:af0a
    stick "$container" 1 -a 1 -n 1:0:+%s -t 1:af0a
    stick "$container" 2 -a 1 -n 1:0:+9 -t 1:ef00 -n 2:0:+%s -t 2:af0a -n 3:0:0 -t 3:af0a
    stick "$container" 1 -S 56 -a 8 -n 1:0:+%s -t 1:af0a
    stick "$container" 7 -S 200 -a 1 -n 7:0:0 -t 7:af0a
    without "$container"
    sticks=$((sticks + 6))
done
[ "$sticks" -gt 0 ] || fail "$folder" "no container was drawn"
words="all agree"
[ "$asked" -eq 1 ] || words="the port was not asked"
echo "$sticks sticks, $checked readings: $words"
