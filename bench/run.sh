#!/usr/bin/env bash
# Compares the speed of the program with the yardstick, which is the same work by plain Rust with nothing proved.
# Use: bench/run.sh [PROGRAM [PACKETS]]; without a word it takes the program that `rt run` or `rt ci` left in its crate, and
# 1,000,000 packets.
#
# Both read captures of so many packets, in turn and five times each: a generated one of 32,768 flows (few), one of a
# single flow (one), one in which no two packets are of one flow (distinct), and one of which every record is skipped
# (skipped); and two more in which no two packets are of one flow, drawn alike, but for what their hashes have in common: nothing
# (ordinary), or that the program finds all of them by a few windows of its table (colliding). Printed are the best times, their ratios
# and the peak memory; the outputs must be the same bytes.
#
# Then the program runs by itself: with one instance and three, by threads, with a journal and its audit, with a tenth of the packets and
# all, with and without a move of a tenth as many units as there are packets to another instance and back, and with and without 12 moves of
# half of the flows of 10,000 packets. What the moves take stands beside what they take by plain Rust (moves.rs).
# All of them run with the allocator set as the launcher sets it, unless GLIBC_TUNABLES is set.
# This is no part of the gate. What it makes stands in bench/out.
set -eu
bench=$(cd "$(dirname "${BASH_SOURCE[0]}")" && pwd)
program=${1:-$bench/../crates/opennf/out/opennf}
packets=${2:-1000000}
out=$bench/out
[ "$packets" = 1000000 ] || out=$out/$packets
mkdir -p "$out"
eval "$(grep '^allocator=' "$bench/../opennf")"
export GLIBC_TUNABLES="${GLIBC_TUNABLES-$allocator}"

if [ ! -x "$program" ]; then
    echo "bench/run.sh: $program isn't there: build it first, by ./opennf at the top" >&2
    exit 1
fi
programs=("$program")
if command -v rustc >/dev/null 2>&1; then
    rustc -O -o "$out/yardstick" "$bench/yardstick.rs"
    programs+=("$out/yardstick")
else
    echo "bench/run.sh: rustc isn't there, so the yardstick can't be built: the program runs alone" >&2
fi

# made NAME COMMAND..: makes that capture by the command, which writes the file that is its last word, if it isn't there.
made() {
    captures+=("$out/$1.pcap")
    if [ ! -f "$out/$1.pcap" ]; then
        echo "bench/run.sh: making the capture $1" >&2
        "${@:2}" "$out/$1.part"
        mv "$out/$1.part" "$out/$1.pcap"
    fi
}
captures=()
made few python3 "$bench/make_capture.py" 7 $packets 256
for shape in one distinct skipped; do
    made $shape python3 "$bench/shapes.py" $shape $packets
done
moves=()
if [ ${#programs[@]} = 2 ]; then
    rustc --edition 2021 -O -o "$out/moves" "$bench/moves.rs"
    moves=("$out/moves")
    rustc --edition 2021 -O -o "$out/collide" "$bench/collide.rs"
    made ordinary "$out/collide" $packets 0 0
    made colliding "$out/collide" $packets 8 14
fi
# The captures of the runs by several instances.
beside=("${captures[@]}")
captures=("$out/few.pcap")
made few-tenth python3 "$bench/make_capture.py" 7 $((packets / 10)) 256
made repeated python3 "$bench/shapes.py" repeated $packets
made twelve python3 "$bench/make_capture.py" 7 10000 200
echo "load $(cut -d ' ' -f 1-3 /proc/loadavg), processors $(nproc)"
python3 "$bench/measure.py" "$out" "${programs[@]}" -- "${beside[@]}"
python3 "$bench/network_speed.py" "$out" "$program" "${captures[@]}" "${moves[@]}"
