"""The wire sessions that crates/tape_rows has as facts: by the file that they stand in, a name, a sentence, a configuration and the lines.

Octets are hex; PRE is a client's preface with an empty SETTINGS frame, SET that frame, GET and POST request heads on stream 1."""
PREFACE = b"PRI * HTTP/2.0\r\n\r\nSM\r\n\r\n".hex()
SET = "000000040000000000"
PRE = PREFACE + SET
GET = "000006010500000001828684010161"
POST = "000006010400000001838684010161"
A = "00112233445566778899"
OK = "00000101040000000188"          # :status 200 on stream 1
OK_END = "00000101050000000188"


def on(stream, head):
    return head[:10] + "%08x" % stream + head[18:]


def data(stream, octets, end=0):
    return "%06x00%02x%08x%s" % (len(octets) // 2, end, stream, octets)


ROUTE = '[[clusters]]\nname = "a"\n[[routes]]\nprefix = "/"\ncluster = "a"\n'
BASE = ["accept 1", "join 2 a"]


def limits(x):
    return "[limits]\n" + x + "\n" + ROUTE


def overload(action, form="value = 5", more=""):
    return '[overload]\nresources = ["m"]\n%striggers = [{ action = "%s", resource = "m", %s }]\n' % (more, action, form) + ROUTE


ROWS = [
    ("Requests", "a request and its response, each with its end on the head", "whole_exchange", ROUTE, BASE + ["read 1 " + PRE + GET, "read 2 " + SET + OK_END]),
    ("Requests", "a request that no route takes", "no_route", '[[clusters]]\nname = "a"\n', BASE + ["read 1 " + PRE + GET]),
    ("Bodies", "a body with padding, which is wasted", "padded_body", ROUTE, BASE + ["read 1 " + PRE + POST + "00000d000900000001" + "02" + A + "0000", "read 2 " + SET + OK + data(1, "bbbb", 1)]),
    ("Bodies", "trailers both ways", "trailers", ROUTE, BASE + ["read 1 " + PRE + POST + data(1, A), "read 1 0000050105000000010001620163", "read 2 " + SET + OK + "0000050105000000010001620163"]),
    ("Requests", "a response that ends before its request", "early_end", ROUTE, BASE + ["read 1 " + PRE + POST, "read 2 " + SET + OK_END, "room 1 1000", "tick 5"]),
    ("Bodies", "content on a stream that both sides have ended", "late_content", ROUTE, BASE + ["read 1 " + PREFACE + "000006040000000000000400000000" + GET, "read 2 " + SET + OK + data(1, "aa" * 5, 1), "read 2 " + data(1, "bb" * 3)]),
    ("Filters", "a Meter lets five octets go for 50 ms", "meter", ROUTE + 'request = ["meter"]\nmeter_limit = 8\nmeter_rate = 5\n', BASE + ["read 1 " + PRE + POST + data(1, A), "tick 50", "tick 100"]),
    ("Filters", "and pauses while the write buffer is above", "meter_behind_write_buffer", "[limits]\nwrite_buffer = 90\n" + ROUTE + 'request = ["meter"]\nmeter_limit = 8\nmeter_rate = 5\n', BASE + ["read 1 " + PRE + POST + data(1, A), "tick 50", "room 2 94"]),
    ("Filters", "a Hold behind a Meter lets the head wait for the whole body", "meter_and_hold", ROUTE + 'request = ["meter", "hold"]\nmeter_rate = 5\n', BASE + ["read 1 " + PRE + POST + data(1, A, 1), "tick 50"]),
    ("Filters", "a body that passes its Hold's limit is answered by 413", "hold_413", ROUTE + 'request = ["hold"]\nhold_limit = 10\n', BASE + ["read 1 " + PRE + POST + data(1, A + "aa", 1)]),
    ("Filters", "a send buffer that holds more than twice its limit gives its exchange up", "overflow", limits("send_buffer = 8\noverflow_multiple = 2"), BASE + ["read 1 " + PRE + POST + data(1, "aa" * 16), "read 1 " + data(1, "aa" * 17)]),
    ("Windows", "what the peer's windows let go", "send_window", limits("write_buffer = 100"), BASE + ["read 1 " + PREFACE + "000006040000000000000400000004" + GET, "read 2 " + SET + OK + data(1, A, 1), "read 1 00000408000000000100000003", "room 1 20", "read 1 00000408000000000100000063"]),
    ("Windows", "two streams behind a full write buffer, in rotation", "two_streams", limits("write_buffer = 60"), BASE + ["read 1 " + PRE + POST + on(3, POST) + data(1, "aa" * 30) + data(3, "bb" * 30), "room 2 40", "room 2 60", "room 2 200"]),
    ("Windows", "a window update by 0 on a stream and on the connection", "updates_by_0", ROUTE, BASE + ["read 1 " + PRE + POST + "00000408000000000100000000", "read 1 00000408000000000000000000"]),
    ("Shifts", "a changed initial window leaves an ended stream alone", "ended_stream_is_not_shifted", "CASE", []),
    ("Floods", "two PINGs for a list of two units", "flood_of_pings", limits("write_buffer = 1\nconnection_window = 65535\ncontrol_frames = 2"), ["accept 1", "read 1 " + PRE + ("000008060000000000" + "00" * 8) * 2]),
    ("Floods", "a client that resets two streams where one is allowed", "flood_of_resets", limits("peer_resets = 1"), BASE + ["read 1 " + PRE + GET, "read 1 00000403000000000100000008", "read 1 " + on(3, GET) + "00000403000000000300000008"]),
    ("Nested", "a doom floods its client, whose close dooms another exchange", "nested_flood", limits("write_buffer = 1\nconnection_window = 65535\ncontrol_frames = 2"), ["accept 1", "join 2 a", "room 1 1000", "room 2 1000", "read 2 " + SET, "room 2 1000", "read 1 " + PRE + POST + on(3, POST), "room 2 1000", "room 2 1000", "read 1 0000080600000000000102030405060708", "read 2 " + data(1, "aa"), "room 2 1000"]),
    ("Nested", "a doom puts all its units at once", "doom_puts_all_at_once", "CASE", []),
    ("Errors", "a cluster that resets a stream", "cluster_resets", ROUTE, BASE + ["read 1 " + PRE + POST, "read 2 " + SET + "00000403000000000100000002"]),
    ("Errors", "DATA before the response's head", "data_before_head", ROUTE, BASE + ["read 1 " + PRE + POST, "read 2 " + SET + data(1, A)]),
    ("Errors", "a body longer than its content-length", "body_too_long", ROUTE, BASE + ["read 1 " + PRE + "00000a0104000000018386840101610f0d0132" + data(1, A)]),
    ("Errors", "DATA on an idle stream", "idle_stream", ROUTE, BASE + ["read 1 " + PRE + data(5, A), "room 1 1000"]),
    ("Errors", "a SETTINGS frame of five octets", "bad_frame", ROUTE, BASE + ["read 1 " + PRE + POST + "000000050400000001"]),
    ("Leaving", "both connections are lost", "lost", limits("write_buffer = 60"), BASE + ["read 1 " + PRE + POST + data(1, A), "gone 2", "gone 1"]),
    ("Leaving", "a drain, a later stream, and a cancelled exchange", "drained", ROUTE, BASE + ["read 1 " + PRE + POST, "post 0 0 drain", "read 1 " + on(3, POST), "post 0 1 cancel 1"]),
    ("Leaving", "an exchange is cancelled", "cancelled", ROUTE, BASE + ["read 1 " + PRE + GET, "post 0 0 cancel 1"]),
    ("GoAway", "a cluster's GOAWAY keeps the first of two streams", "cluster_leaves", ROUTE, BASE + ["read 1 " + PRE + POST + on(3, POST), "read 2 " + SET + "0000080700000000000000000100000000", "read 2 " + OK_END, "room 1 1000"]),
    ("Timers", "a route's time passes", "route_timeout", ROUTE, BASE + ["read 1 " + PRE + GET, "tick 14999", "tick 15000"]),
    ("Timers", "an idle connection", "idle_connection", "[timeouts]\nconnection_idle = 10\n" + ROUTE, ["accept 1", "tick 9", "tick 10"]),
    ("Ticks", "a tick walks what was stirred", "tick_walks_what_was_stirred", "CASE", []),
    ("Overload", "a connection is rejected", "rejected", overload("reject_incoming"), ["obey 1 7", "accept 1", "gone 1"]),
    ("Overload", "a request is stopped", "stopped", overload("stop_requests"), BASE + ["obey 1 7", "read 1 " + PRE + GET]),
    ("Overload", "the greatest exchange is reset", "reset_by_memory", overload("reset_streams", "scaling = 0, saturation = 1000000", "class_start = 10\n") + 'request = ["hold"]\n', BASE + ["read 1 " + PRE + POST + data(1, "aa" * 1024), "obey 1 874999", "obey 2 875000"]),
]
