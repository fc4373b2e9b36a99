#!/bin/sh
# Times taking and giving back frames beside malloc and free of as many bytes, and making a pool.
# A C caller needs an exported function. It stands in a crate that this script writes into a folder of its own outside
# the repository, beside copies of the crates, so that the gate knows nothing of it.
set -e
here=$(cd "$(dirname "$0")" && pwd)
top=$(cd "$here/../.." && pwd)
work=$(mktemp -d)
trap 'rm -rf "$work"' EXIT
for crate in no_memory finite_maps frame_pool; do
    mkdir -p "$work/crates/$crate"
    for part in src specs proofs; do
        if [ -d "$top/crates/$crate/$part" ]; then
            cp -R "$top/crates/$crate/$part" "$work/crates/$crate/"
        fi
    done
done
mkdir -p "$work/crates/frames_export/src"
cat > "$work/crates.txt" <<'LIST'
no_memory:
finite_maps:
frame_pool: finite_maps no_memory core std_alloc
frames_export staticlib: frame_pool
LIST
cat > "$work/crates/frames_export/src/lib.rt" <<'CRATE'
//! Rounds of taking two frames and giving them back, for a caller in C.
#![tactic(auto)]

use frame_pool::Pool;
use std::alloc::Global;

#[unsafe(no_mangle)]
pub extern "C" fn frames_export_rounds(alloc: Global, rounds: u32) -> u32 {
    let Ok(mut pool) = Pool::new(alloc, 1024, 4096) else {
        return 0;
    };
    let mut done = 0u32;
    for _ in 0..rounds {
        let first = pool.take();
        let second = pool.take();
        for frame in [first, second] {
            if let Some(frame) = frame {
                if pool.is_out(&frame) {
                    pool.give(frame);
                    done = done.saturating_add(1);
                }
            }
        }
    }
    done
}

/// A pool of the greatest size is made and dropped.
#[unsafe(no_mangle)]
pub extern "C" fn frames_export_pools(alloc: Global, pools: u32) -> u32 {
    let mut made = 0u32;
    for _ in 0..pools {
        if Pool::new(alloc, 4096, 4096).is_ok() {
            made = made.saturating_add(1);
        }
    }
    made
}
CRATE
(cd "$work/crates/frames_export" && rt lib > ../log 2>&1 || { cat ../log; exit 1; })
kit=$(dirname "$(dirname "$(readlink -f "$(command -v rt)")")")
for lib in liblibc_c.a; do
    [ -f "$kit/c/$lib" ] || kit=/opt/rattle
done
${CC:-cc} -O2 -o "$work/bench" "$here/bench.c" "$work/crates/frames_export/out/libframes_export.a" "$kit/c/liblibc_c.a"
"$work/bench"
