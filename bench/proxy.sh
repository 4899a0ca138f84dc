#!/bin/sh
# Measures `h2proxy relay` beside haproxy in TCP mode and socat: processor time of each, by /proc, over the same load on loopback.
#
#   bench/proxy.sh H2PROXY [ROUNDS]
#
# H2PROXY is the program. The peers are Debian's packages haproxy and socat; one that isn't there is left out. The load comes
# from bench/proxy_load.c, which is compiled first. Each round goes through all of them in turn; the figures are medians.
set -eu
here=$(cd "$(dirname "$0")" && pwd)
program=$(realpath "$1")
rounds=${2:-5}
work=$(mktemp -d)
cc -O2 -o "$work/load" "$here/proxy_load.c"
exec python3 "$here/proxy_cost.py" "$program" "$work" "$rounds"
