#!/usr/bin/env bash
# Builds the two archives from proved crates: the one for C, and the one of all calls. boundary.sh, reference.sh and bench/run.sh link them. Says
# on standard error what it does. Builds an archive only if what it is made of has changed: beside it, NAME.made has the crate's stamp (a hash of its
# files, of all that it needs and of the kit: tools/prove.py), the hash of this script, and that of the archive itself.
#
# Every function begins at a multiple of 64 bytes. Else the linker decides where the kernel stands, and 16 bytes past a multiple of 32 it takes up to
# 1.4 times as long.
set -eu
unset CDPATH
cd -- "$(dirname -- "$0")/.."

made() {
    cat "target/stamp/$1" && sha256sum <tests/archives.sh && sha256sum <"target/staticlib/lib$1.a"
}

python3 tools/prove.py moqresam harness
mkdir -p target/staticlib
for crate in moqresam harness; do
    archive=target/staticlib/lib$crate.a record=target/staticlib/$crate.made
    if now=$(made "$crate" 2>/dev/null) && [ -f "$record" ] && [ "$now" = "$(cat "$record")" ]; then
        continue
    fi
    echo "building $archive, up to a minute" >&2
    rm -f "$record"
    said=$(cd "crates/$crate" && rt lib 2>&1) || { echo "$said" >&2; exit 1; }
    cp "crates/$crate/out/lib$crate.a" "$archive"
    objcopy --set-section-alignment '.text.*=64' "$archive"
    made "$crate" >"$record"
done
