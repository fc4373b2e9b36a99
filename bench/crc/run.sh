#!/bin/sh
# Builds the proved checksums as a static library and times them beside zlib (Debian package zlib1g-dev).
# A C caller needs exported functions. They stand in a crate that this script writes into a folder of its own outside
# the repository, beside a copy of the crate, so that the gate knows nothing of it.
set -e
here=$(cd "$(dirname "$0")" && pwd)
top=$(cd "$here/../.." && pwd)
work=$(mktemp -d)
trap 'rm -rf "$work"' EXIT
mkdir -p "$work/crates/crc_export/src" "$work/crates/crc_words"
for part in src specs proofs; do
    cp -R "$top/crates/crc_words/$part" "$work/crates/crc_words/"
done
printf 'crc_words:\ncrc_export staticlib: crc_words\n' > "$work/crates.txt"
cat > "$work/crates/crc_export/src/lib.rt" <<'CRATE'
//! The checksums of `crc_words`, for a caller in C.
#![tactic(auto)]

ghost use Rattle.std.specs.Prelude.{◌≡◌};
ghost use Rattle.crc_words.specs.Remainder.{crc32_of, crc32c_raw_of};

#[unsafe(no_mangle)]
pub extern "C" fn crc_export_crc32(bytes: &[u8]) -> u32
    ensures { result ≡ crc32_of bytes.now }
{
    crc_words::crc32(bytes)
}

#[unsafe(no_mangle)]
pub extern "C" fn crc_export_crc32c_raw(bytes: &[u8]) -> u32
    ensures { result ≡ crc32c_raw_of bytes.now }
{
    crc_words::crc32c_raw(bytes)
}
CRATE
(cd "$work/crates/crc_export" && rt lib > ../log 2>&1 || { cat ../log; exit 1; })
${CC:-cc} -O2 -o "$work/bench" "$here/bench.c" "$work/crates/crc_export/out/libcrc_export.a" -lz
"$work/bench"
