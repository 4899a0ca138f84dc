#!/usr/bin/env python3
"""Prints stories of field blocks that use the dynamic table, a line each: its name, and its blocks in hexadecimal, as one encoder writes
them one after another. The fields are those of a hundred requests of a browser, ten each, on three pages of one site.

nghttp2: Debian's libnghttp2, with Huffman strings. hpack, plain: Debian's python3-hpack, with Huffman strings and without. An encoder that
isn't there is left out, and said so on the standard error."""
import ctypes
import sys

PAGES = ["/", "/search?q=http2&lang=en", "/articles/2024/field-compression-for-http-2"]
KINDS = [
    ("text/html,application/xhtml+xml,application/xml;q=0.9,*/*;q=0.8", "", 1),
    ("text/css,*/*;q=0.1", "/assets/site-%d.css", 3),
    ("*/*", "/assets/app-%d.js", 4),
    ("image/avif,image/webp,*/*", "/images/photo-%d.webp", 17),
    ("application/json", "/api/v1/items?page=%d", 8),
]


def requests():
    """The field lists, as lists of names and values."""
    made = []
    number = 0
    while len(made) < 100:
        page = PAGES[number % len(PAGES)]
        number += 1
        for accept, path, times in KINDS:
            for turn in range(times):
                made.append([
                    (":method", "GET"),
                    (":scheme", "https"),
                    (":authority", "www.example.com"),
                    (":path", path % (100 * number + turn) if path else page),
                    ("user-agent", "Mozilla/5.0 (X11; Linux x86_64; rv:109.0) Gecko/20100101 Firefox/119.0"),
                    ("accept", accept),
                    ("accept-language", "en-US,en;q=0.5"),
                    ("accept-encoding", "gzip, deflate, br"),
                    ("referer", "https://www.example.com" + page),
                    ("cookie", "session=8c1f0e2b6d5a4c39f9b7e; theme=dark"),
                ])
    return made[:100]


class Field(ctypes.Structure):
    """nghttp2_nv"""
    _fields_ = [("name", ctypes.c_char_p), ("value", ctypes.c_char_p), ("namelen", ctypes.c_size_t), ("valuelen", ctypes.c_size_t),
                ("flags", ctypes.c_uint8)]


def by_nghttp2(lists):
    library = ctypes.CDLL("libnghttp2.so.14")
    library.nghttp2_hd_deflate_hd.restype = ctypes.c_ssize_t
    encoder = ctypes.c_void_p()
    if library.nghttp2_hd_deflate_new(ctypes.byref(encoder), ctypes.c_size_t(4096)):
        raise OSError("no encoder")
    blocks = []
    for fields in lists:
        given = (Field * len(fields))(*[Field(n.encode(), v.encode(), len(n), len(v), 0) for n, v in fields])
        room = ctypes.create_string_buffer(16384)
        used = library.nghttp2_hd_deflate_hd(encoder, room, ctypes.c_size_t(len(room)), given, ctypes.c_size_t(len(fields)))
        if used < 0:
            raise OSError("not encoded")
        blocks.append(room.raw[:used])
    return blocks


def by_python(lists, huffman):
    import hpack
    encoder = hpack.Encoder()
    return [encoder.encode(fields, huffman=huffman) for fields in lists]


def main():
    lists = requests()
    for name, make in [("nghttp2", by_nghttp2), ("hpack", lambda l: by_python(l, True)), ("plain", lambda l: by_python(l, False))]:
        try:
            blocks = make(lists)
        except (ImportError, OSError) as why:
            print(f"left out: {name} ({why})", file=sys.stderr)
            continue
        print(name, *[block.hex() for block in blocks])


main()
