#!/bin/sh
# Replays a session of 67,108,864 octets and prints time, resident memory and octets a second.
set -eu
command -v /usr/bin/time > /dev/null || { echo "replay: /usr/bin/time is missing (Debian: apt-get install time)" >&2; exit 1; }
cd "$(dirname "$0")/.."
work=$(mktemp -d)
trap 'rm -rf "$work"' EXIT
awk 'BEGIN {
    head = "h2replay-session 1 plain\nlimits 65535 0 0\nopen 1\n"
    body = "a5"; while (length(body) < 32768) body = body body
    pair = "in 1 " body "\nroom 16393\n"
    left = 67108864 - length(head); pairs = int(left / length(pair)); left -= pairs * length(pair)
    printf "%s", head
    for (i = 0; i < pairs; i++) printf "%s", pair
    # What is left is one shorter body and its room, and a room of one digit more where it is odd.
    if (left % 2 == 1) { tail = "room 16393\n"; left -= length(tail) } else { tail = "room 163930\n"; left -= length(tail) }
    n = int((left - 6) / 2)
    printf "in 1 %s\n%s", substr(body, 1, 2 * n), tail
}' > "$work/session"
(cd crates/replay_main && rt run -- plain < ../../samples/one_stream.session > /dev/null)
program=crates/replay_main/out/replay_main
octets=$(wc -c < "$work/session")
for turn in 1 2 3; do
    start=$(date +%s%N)
    /usr/bin/time -f '%M KB resident, %U s user, %S s system' "$program" plain < "$work/session" > "$work/tape"
    end=$(date +%s%N)
    echo "$octets octets, $(((octets * 1000) / ((end - start) / 1000000))) octets a second"
    tail -n 1 "$work/tape"
done
