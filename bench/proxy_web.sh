#!/bin/bash
# Real peers through `h2proxy relay`: curl to nginx (HTTP/1.1), and curl and h2load to nghttpd (HTTP/2 without TLS).
#
#   bench/proxy_web.sh H2PROXY
#
# Debian's packages curl, nginx-light, nghttp2-server and nghttp2-client; a peer that isn't there is left out. Ends with 1 where
# something that came through the relay differs.
set -u
program=$(realpath "$1")
work=$(mktemp -d); bad=0; started=()
trap 'kill "${started[@]}" 2>/dev/null; rm -rf "$work"' EXIT
mkdir -p "$work/www" "$work/tmp"
head -c 67108864 /dev/urandom > "$work/www/big"
head -c 100000 /dev/urandom > "$work/www/middle"
: > "$work/www/empty"

relay() { # NAME LISTEN SERVER
    printf '[proxy]\nlisten = "127.0.0.1:%s"\nconnections = 4\n[[clusters]]\nname = "web"\naddress = "127.0.0.1:%s"\n' "$2" "$3" > "$work/$1.toml"
    "$program" relay "$work/$1.toml" > "$work/$1.out" &
    started+=($!)
}
same() { # WHAT FILE FILE
    if cmp -s "$2" "$3"; then echo "$1: ok"; else echo "$1: DIFFERS"; bad=1; fi
}

if command -v nginx > /dev/null; then
    cat > "$work/nginx.conf" <<CONF
daemon off; pid $work/nginx.pid; error_log $work/nginx.log;
events {}
http {
    access_log off; client_body_temp_path $work/tmp;
    server { listen 127.0.0.1:24101; root $work/www; }
}
CONF
    nginx -c "$work/nginx.conf" 2> /dev/null & started+=($!)
    relay nginx 24102 24101; sleep 1
    for name in empty middle big; do
        curl -s -o "$work/got" "http://127.0.0.1:24102/$name"; same "curl to nginx: $name" "$work/got" "$work/www/$name"
    done
    curl -s -o "$work/got" -H 'Connection: close' http://127.0.0.1:24102/big; same 'curl to nginx: big, the server ends first' "$work/got" "$work/www/big"
    for i in $(seq 30); do echo "url=http://127.0.0.1:24102/middle"; echo "output=$work/many-$i"; done > "$work/many"
    curl -s --parallel --parallel-max 30 -K "$work/many"
    for i in $(seq 30); do cmp -s "$work/many-$i" "$work/www/middle" || { echo "curl to nginx, 30 at once: DIFFERS"; bad=1; }; done
    echo 'curl to nginx: 30 at once: done'
fi
if command -v nghttpd > /dev/null; then
    nghttpd --no-tls -d "$work/www" 24103 > /dev/null & started+=($!)
    relay nghttpd 24104 24103; sleep 1
    for name in empty middle big; do
        curl -s --http2-prior-knowledge -o "$work/got" "http://127.0.0.1:24104/$name"; same "curl to nghttpd (HTTP/2): $name" "$work/got" "$work/www/$name"
    done
    if command -v h2load > /dev/null; then
        for to in 24103 24104; do
            h2load -n 20000 -c 16 -m 32 "http://127.0.0.1:$to/empty" | grep -E '^(finished|requests)' | sed "s/^/h2load at $to: /"
        done
        h2load -n 20000 -c 16 -m 32 http://127.0.0.1:24104/empty | grep -q '20000 succeeded' || { echo 'h2load: FAILED'; bad=1; }
    fi
fi
exit $bad
