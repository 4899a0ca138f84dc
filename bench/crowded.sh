#!/bin/sh
# The drill of 1,000 streams as a session's text (33 MB, 69,000 events, 1,718,148 pauses): prints the processor time and
# the resident memory of `drill 1000` and of `plain` on that text, five times in turn, and the best of each with their
# ratio. The aims are 10 times and 200 MB.
set -eu
cd "$(dirname "$0")/.."
command -v /usr/bin/time > /dev/null || { echo "crowded: /usr/bin/time is missing (Debian: apt-get install time)" >&2; exit 1; }
work=$(mktemp -d)
trap 'rm -rf "$work"' EXIT
awk 'BEGIN {
    streams = 1000; x = streams
    print "h2replay-session 2 plain\nlimits 65535 4096 16384 16384"
    for (s = 1; s < 2 * streams; s += 2) { print "open " s; hex[s] = sprintf("%02x", s % 256); octets[s] = "" }
    for (round = 0; round < 32; round++)
        for (s = 1; s < 2 * streams; s += 2) {
            n = draw(); body = octets[s]
            while (length(body) < 2 * n) body = body hex[s] hex[s] hex[s] hex[s]
            octets[s] = body
            print "in " s " " substr(body, 1, 2 * n)
            print "room " draw()
        }
    for (s = 1; s < 2 * streams; s += 2) print "end " s
    for (i = 0; i < 3 * streams; i++) print "room 1000000"
}
# The drill draws from x = 1103515245 x + 12345 modulo 2^31, of which the upper 15 bits count. No product passes 2^53.
function draw(   high, low) {
    high = int(x / 65536); low = x % 65536
    x = ((1103515245 * high) % 32768 * 65536 + 1103515245 * low + 12345) % 2147483648
    return 1 + int(x / 65536) % 1024
}' > "$work/session"
if [ $# -gt 0 ]; then
    program=$1
else
    (cd crates/replay_main && rt run -- plain < ../../samples/one_stream.session > /dev/null)
    program=crates/replay_main/out/replay_main
fi
for turn in 1 2 3 4 5; do
    /usr/bin/time -a -o "$work/drill" -f '%U %S %M' "$program" drill 1000 > /dev/null
    /usr/bin/time -a -o "$work/plain" -f '%U %S %M' "$program" plain < "$work/session" > /dev/null
done
for form in drill plain; do
    awk -v form="$form" '{ t = $1 + $2; printf "%s: %.2f s, %d KB\n", form, t, $3 }' "$work/$form"
done
awk 'function low() { return $1 + $2 } FNR == 1 { file++ } { t = low(); if (!(file in best) || t < best[file]) best[file] = t }
    END { printf "best: drill %.2f s, plain %.2f s, %.1f times\n", best[1], best[2], best[2] / best[1] }' "$work/drill" "$work/plain"
