#!/usr/bin/env bash
# Proves and builds the static library and the four programs, or those of them that are named (host, bankplan, ..), and copies them from
# the crates' out/ folders: target/staticlib/libbankplan.a, which is the crate host_c's libhost_c.a, also under its older name libhost.a, and target/bin/NAME.
set -euo pipefail
cd "$(dirname "$0")/.."
[ $# -gt 0 ] || set -- host bankplan bankrun bankwrite banktake
for name in "$@"; do
    case $name in
        host)
            (cd crates/host_c && rt lib)
            mkdir -p target/staticlib
            cp -f crates/host_c/out/libhost_c.a target/staticlib/libhost.a
            cp -f crates/host_c/out/libhost_c.a target/staticlib/libbankplan.a
            ;;
        *)
            # `rt run` proves and builds it, and then runs it, which is of no use here: with no argument and no input it ends at once
            (cd "crates/$name" && rt run </dev/null >/dev/null)
            mkdir -p target/bin
            cp -f "crates/$name/out/$name" "target/bin/$name"
            ;;
    esac
done
