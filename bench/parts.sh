#!/usr/bin/env bash
# Measures parts of the network: steps of a table, targets of flows, chunks that are selected and taken in, and generated captures. Beside
# most of them plain Rust does the same, with nothing proved.
# Use: bench/parts.sh [PART_SPEED OPENNF]; without words they are the programs that `rt run` or `rt ci` left in their crates.
# This is no part of the gate. What it makes stands in bench/out.
set -eu
bench=$(cd "$(dirname "${BASH_SOURCE[0]}")" && pwd)
speed_parts=${1:-$bench/../crates/speed_parts/out/speed_parts}
opennf=${2:-$bench/../crates/opennf/out/opennf}
out=$bench/out
mkdir -p "$out"
for program in "$speed_parts" "$opennf"; do
    if [ ! -x "$program" ]; then
        echo "bench/parts.sh: $program isn't there: build it first, by 'rt ci' at the top" >&2
        exit 1
    fi
done
rustc --edition 2021 -O -o "$out/parts" "$bench/parts.rs"
echo "load $(cut -d ' ' -f 1-3 /proc/loadavg), processors $(nproc)"
python3 "$bench/parts.py" "$out" "$speed_parts" "$opennf" "$out/parts"
