#!/usr/bin/env bash
# Builds the archives that the host links: the exports of crates/apfs_c and crates/leaves_c, proved, as libapfs.a and
# libleaves.a in target/staticlib; and the program that the host's tests run, crates/lister, as target/bin/lister. What no
# earlier check left proved, of these and of the crates below, is proved first.
#
#     tools/archives.sh [NAME..]     NAME is apfs, leaves or lister; all where none is named
set -eu -o pipefail
cd "$(dirname "$0")/.."

[ $# -gt 0 ] || set -- apfs leaves lister
for name; do
    case $name in
        apfs | leaves | lister) ;;
        *)
            echo "archives.sh: no archive $name: name apfs, leaves or lister"
            exit 2
            ;;
    esac
done

to=target/staticlib
bin=target/bin
mkdir -p "$to" "$bin"
for name; do
    if [ "$name" = lister ]; then
        rm -f "crates/lister/out/lister" "$bin/lister"
        (cd crates/lister && rt run <stdin >/dev/null)
        cp crates/lister/out/lister "$bin/lister"
        echo "archives.sh: $bin/lister"
        continue
    fi
    made=crates/${name}_c/out/lib${name}_c.a
    # So that a build that fails leaves no archive of older sources.
    rm -f "$made" "$to/lib$name.a"
    (cd "crates/${name}_c" && rt lib)
    cp "$made" "$to/lib$name.a"
    echo "archives.sh: $to/lib$name.a"
done
