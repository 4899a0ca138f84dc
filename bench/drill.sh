#!/bin/sh
# Runs the drill of 1,000 streams, 69,000 events, five times and prints time, resident memory and events a second.
set -eu
command -v /usr/bin/time > /dev/null || { echo "drill: /usr/bin/time is missing (Debian: apt-get install time)" >&2; exit 1; }
cd "$(dirname "$0")/.."
(cd crates/replay_main && rt run -- drill 1 > /dev/null)
program=crates/replay_main/out/replay_main
for turn in 1 2 3 4 5; do
    start=$(date +%s%N)
    /usr/bin/time -f '%M KB resident, %U s user, %S s system' "$program" drill 1000 > /dev/null
    end=$(date +%s%N)
    echo "$(((69000 * 1000000) / ((end - start) / 1000))) events a second"
done
