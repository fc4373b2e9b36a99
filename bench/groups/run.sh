#!/bin/sh
# Times the search for a free block in a group, and the count of its free blocks.
# A C caller needs an exported function. It stands in a crate that this script writes into a folder of its own outside
# the repository, beside copies of the crates, so that the gate knows nothing of it.
set -e
here=$(cd "$(dirname "$0")" && pwd)
top=$(cd "$here/../.." && pwd)
work=$(mktemp -d)
trap 'rm -rf "$work"' EXIT
crates="no_memory text_words profile_limits crc_words gfs2_layout file_tree dlm_modes glock_names finite_maps drafts resource_groups"
for crate in $crates; do
    mkdir -p "$work/crates/$crate"
    for part in src specs proofs; do
        if [ -d "$top/crates/$crate/$part" ]; then
            cp -R "$top/crates/$crate/$part" "$work/crates/$crate/"
        fi
    done
    grep "^$crate[ :]" "$top/crates.txt" >> "$work/crates.txt"
done
echo 'groups_export staticlib: resource_groups glock_names gfs2_layout' >> "$work/crates.txt"
mkdir -p "$work/crates/groups_export/src"
cat > "$work/crates/groups_export/src/lib.rt" <<'CRATE'
//! Rounds of a search in a group of which all blocks are taken but the last, for a caller in C.
#![tactic(auto)]

use glock_names::{Group, LockName, State, Step, View};
use resource_groups::{count_free, find_free};
use std::alloc::Global;

const GROUP: Group = Group {
    addr: 20,
    length: 5,
    first: 25,
    count: 65536,
};

static GROUPS: [Group; 1] = [GROUP];

/// The header's block, those of the bitmap that are full, and the last one.
#[derive(Drop)]
pub struct Full {
    header: Vec<u8>,
    full: Vec<u8>,
    last: Vec<u8>,
}

impl View for Full {
    ghost use Rattle.std.specs.Prelude.{ℕ, List, Option, None, Some, [], ◌∷◌, length, ◌==◌, nat_lt, if◌then◌else◌};
    ghost use Rattle.glock_names.specs.declared.State.TheVariants.{Ex};

    ghost seen = { λ v. record {
      size = 4096;
      root = 0;
      groups = record { addr = 20; length = 5; first = 25; count = 65536 } ∷ [];
      state_of = λ lock. Ex;
      block_at = λ b. if b == 20 then (if length v.header.items == 4096 then Some v.header.items else None)
          else if b == 24 then (if length v.last.items == 4096 then Some v.last.items else None)
          else (if length v.full.items == 4096 then Some v.full.items else None);
    } };

    fn state(&self, _lock: LockName) -> State {
        State::Ex
    }

    fn block(&self, block: u64) -> Option<&[u8]> {
        let bytes = if block == 20 {
            &self.header
        } else if block == 24 {
            &self.last
        } else {
            &self.full
        };
        if bytes.len() == 4096 {
            Some(bytes)
        } else {
            None
        }
    }

    fn groups(&self) -> &[Group] {
        &GROUPS
    }

    fn root(&self) -> u64 {
        0
    }

    fn block_size(&self) -> u32 {
        4096
    }
}

// A block with a header of this kind and format, and taken blocks behind it.
fn block_of(alloc: Global, kind: u8, format: [u8; 2]) -> Option<Vec<u8>> {
    let mut bytes = Vec::new(alloc);
    for byte in [0x01, 0x16, 0x19, 0x70, 0, 0, 0, kind] {
        bytes.push(byte).ok()?;
    }
    for _ in 0..8u32 {
        bytes.push(0).ok()?;
    }
    for byte in [0, 0, format[0], format[1]] {
        bytes.push(byte).ok()?;
    }
    for _ in 20..4096u32 {
        bytes.push(0x55).ok()?;
    }
    Some(bytes)
}

fn made(alloc: Global) -> Option<Full> {
    let mut header = block_of(alloc, 2, [0, 200])?;
    let full = block_of(alloc, 3, [1, 44])?;
    let mut last = block_of(alloc, 3, [1, 44])?;
    for place in 28..32usize {
        if place < header.len() {
            header[place] = u8::from(place == 31);
        }
    }
    // the last of 65,536 blocks is the last of 800 in this block: the top bits of byte 199 behind its header of 24
    if last.len() > 223 {
        last[223] = 0x15;
    }
    Some(Full { header, full, last })
}

#[unsafe(no_mangle)]
pub extern "C" fn groups_export_find(alloc: Global, rounds: u32) -> u64 {
    let Some(view) = made(alloc) else {
        return 0;
    };
    let mut sum = 0u64;
    for _ in 0..rounds {
        let size = view.block_size();
        if let Ok(Step::Is(Some(block))) = find_free(&view, &GROUP, u64::from(size) - 4096) {
            sum = sum.saturating_add(block);
        }
    }
    sum
}

#[unsafe(no_mangle)]
pub extern "C" fn groups_export_count(alloc: Global, rounds: u32) -> u64 {
    let Some(view) = made(alloc) else {
        return 0;
    };
    let mut sum = 0u64;
    for _ in 0..rounds {
        if let Ok(Step::Is(free)) = count_free(&view, &GROUP) {
            sum = sum.saturating_add(u64::from(free));
        }
    }
    sum
}
CRATE
(cd "$work/crates/groups_export" && rt lib > ../log 2>&1 || { cat ../log; exit 1; })
kit=$(dirname "$(dirname "$(readlink -f "$(command -v rt)")")")
for lib in liblibc_c.a; do
    [ -f "$kit/c/$lib" ] || kit=/opt/rattle
done
${CC:-cc} -O2 -o "$work/bench" "$here/bench.c" "$work/crates/groups_export/out/libgroups_export.a" "$kit/c/liblibc_c.a"
"$work/bench"
