#!/bin/sh
# Decodes the same blocks of request fields with hpack_codec and with libnghttp2, in one run: two blocks of literals, and
# stories of a hundred blocks that use the dynamic table, as libnghttp2 and python3-hpack write them.
# Needs Debian's libnghttp2-dev, python3-hpack and a C compiler; without the first or the last it says so and ends well.
set -e
cd "$(dirname "$0")/.."
compiler=${CC:-cc}
command -v "$compiler" >/dev/null 2>&1 || compiler=clang
made=$(mktemp -d)
trap 'rm -r "$made"' EXIT
if ! printf '#include <nghttp2/nghttp2.h>\nint main(void) { return nghttp2_version(0) == 0; }\n' |
    "$compiler" -x c -o "$made/probe" - -lnghttp2 2>/dev/null; then
    echo "skipped: no libnghttp2 to compile against"
    exit 0
fi
"$compiler" -O3 -o "$made/fields" bench/fields.c -lnghttp2
cd crates/layer_bench
rt run >/dev/null
out/layer_bench fields blocks >"$made/stories"
/usr/bin/python3 ../../bench/stories.py >>"$made/stories"
for turn in 1 2 3 4 5; do
    out/layer_bench fields stories <"$made/stories"
    "$made/fields" <"$made/stories"
done
out/layer_bench fields | tail -1
