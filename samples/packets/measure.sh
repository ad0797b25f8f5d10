#!/bin/sh
# Compares reading and writing outwards with plain Rust, and takes the time of both. Run from the repository's root; wants rustc.
set -e
here=$(pwd)
work=$(mktemp -d)
trap 'rm -rf "$work"' EXIT
mkdir -p "$work/crates/measured/src"
for crate in blocks mappings sums packets; do
    cp -r "crates/$crate" "$work/crates/"
    rm -rf "$work/crates/$crate/must-fail"
done
printf 'blocks:\nmappings: blocks\nsums:\npackets: blocks mappings sums\nmeasured staticlib: blocks mappings sums packets\n' > "$work/crates.txt"
cat > "$work/crates/measured/src/lib.rt" <<'END'
// For measuring: a packet read and written outwards.
#![tactic(auto)]

use packets::facts::{End, Endpoint, Reading, Relocation};
use packets::reader::read;
use packets::writer::write;

#[unsafe(no_mangle)]
pub extern "C" fn rattle_translate_out(packet: &mut [u8], address: u32, port: u16) -> u8 {
    let Ok(Reading::Packet(facts)) = read(packet) else {
        return 0;
    };
    let relocation = Relocation {
        end: End::Source,
        endpoint: Endpoint { address, port },
        hops: 1,
    };
    write(packet, facts, relocation);
    1
}
END
cd "$work/crates/measured"
rt lib > "$work/log" 2>&1 || { cat "$work/log"; exit 1; }
kit=$(dirname "$(rt doc)")
rustc -C opt-level=3 --edition 2021 -o measure "$here/samples/packets/measure.rs" \
    -L native="$work/crates/measured/out" -L native="$kit/c" -l static=measured -l static=libc_c -l static=os_c
./measure
