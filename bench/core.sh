#!/usr/bin/env bash
# Measures the concurrency core: the choices that the schedule `first` and the threads take in a second, the time of a world
# like the program's network by each schedule and by threads, and the memory of a choice.
# Use: bench/core.sh [PROGRAM]; without a word it takes the program that `rt run` or `rt ci` left in its crate.
#
# Rings of 5 nodes and hubs of 17 pass tokens on, with few tokens and with many, five times each; printed are the best times.
# The network is a switch with a window of 256, a controller, and 2 or 16 instances; each of 1,000,000 packets is carried to an
# instance, processed there, and a credit comes back, with some 90 ns of work on each packet and with none.
# The memory of a choice is the difference of a shorter and a longer run of the ring, divided by the difference of their
# choices. By threads it is taken twice: while several threads run, when the histories grow, and at the peak of the whole run,
# when they are merged. This is no part of the gate. It writes no file.
set -eu
bench=$(cd "$(dirname "${BASH_SOURCE[0]}")" && pwd)
program=${1:-$bench/../crates/speed_core/out/speed_core}

if [ ! -x "$program" ]; then
    echo "bench/core.sh: $program isn't there: build it first, by 'rt run -- ring first 5 1 1000' in crates/speed_core" >&2
    exit 1
fi
echo "load $(cut -d ' ' -f 1-3 /proc/loadavg), processors $(nproc)"
python3 "$bench/core.py" "$program"
echo "this is a measurement, and no part of the gate"
