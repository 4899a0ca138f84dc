"""Runs a wire session through the reference model and writes its tape with the marks that the tape doesn't show.

The model is a package `h2model` with a generator `gen`; `load(folder)` says where it is. A step is an antt value (see antt.py)."""
import importlib, os, sys

from antt import Con, NONE, Rec, some

LAST_LINES = []     # of the run before: notes as text, marks as they were made
REC = {}        # what hooks and a run share


def load(folder):
    """Hooks the model's calls that take a frame and that frame a unit."""
    sys.dont_write_bytecode = True
    sys.path.insert(0, folder)
    wire = importlib.import_module("h2model.wire")
    session = importlib.import_module("h2model.session")
    hpack = importlib.import_module("h2model.hpack")
    REC.update(wire=wire, replay=importlib.import_module("h2model.replay"), config=importlib.import_module("h2model.config"))

    def hook(owner, name, around):
        plain = getattr(owner, name)
        setattr(owner, name, lambda self, *args: around(plain, self, *args))

    def accept(plain, self, frame):
        REC["frame"] = frame
        return plain(self, frame)

    def take_act(plain, self, conn, act):
        REC["mark"] = {"took": conn.number, "frame": REC["frame"], "act": act, "reading": "NoBlock"}
        self.tape.lines.append(REC["mark"])
        REC["taking"] = True
        try:
            return plain(self, conn, act)
        finally:
            REC["taking"] = False

    def decode(plain, self, block):
        mark = REC.get("mark") if REC.get("taking") else None
        try:
            fields = plain(self, block)
        except hpack.ListTooLong:
            if mark:
                mark["reading"] = "TooLong"
            raise
        except hpack.HpackFault:
            if mark:
                mark["reading"] = "Refused"
            raise
        if mark:
            mark["reading"] = fields
        return fields

    def connection_error(plain, self, conn, code):
        if not REC.get("taking"):
            self.tape.lines.append({"broke": conn.number, "code": code})
        return plain(self, conn, code)

    def start_draining(plain, self, conn):
        if conn.open and not conn.draining:
            self.tape.lines.append({"drains": conn.number})
        return plain(self, conn)

    def frame_waiting(plain, self, conn):
        u = conn.waiting[0]
        put = Con("Control", tuple(u.octets)) if isinstance(u, wire.Answer) else Con("Reply", u.stream, u.status)
        self.tape.lines.append({"picked": conn.number, "unit": Con("Put", put)})
        return plain(self, conn)

    def frame_flow(plain, self, conn, flow, unit):
        if unit[0] != "body":
            self.tape.lines.append({"picked": conn.number, "unit": Con("HeadOf" if unit[0] == "head" else "TrailersOf", flow_of(flow.name))})
        return plain(self, conn, flow, unit)

    def close(plain, self, conn, code, cause):
        if cause in ("protocol", "idle", "flood") and not conn.write.above:
            self.tape.lines.append({"picked": conn.number, "unit": Con("Farewell", code, Con(cause.capitalize()))})
        return plain(self, conn, code, cause)

    hook(session.Session, "accept", accept)
    hook(hpack.Decoder, "decode", decode)
    for name, around in (("take_act", take_act), ("connection_error", connection_error), ("start_draining", start_draining), ("frame_waiting", frame_waiting),
                         ("frame_flow", frame_flow), ("close", close)):
        hook(wire.WireCore, name, around)


def generated(seed, events=None, hostile=None):
    """(configuration text, session text) of the model's generator."""
    gen = importlib.import_module("gen")
    return gen.make_wire(seed, "wire", events, hostile)


def run(config_text, lines):
    """The configuration as a value, and the steps from the oldest. A line that the order rules refuse ends the session."""
    config = REC["config"].read_config(config_text.encode())
    player = REC["replay"].make_player("wire", config)
    for line in lines:
        if not player.take_line(line.encode() if isinstance(line, str) else line):
            break
    names = [c.name for c in config.clusters]
    LAST_LINES[:] = player.core.tape.lines
    return config_value(config), [step_of(x, names) for x in player.core.tape.lines]


# ---- values
def octets(b):
    return tuple(b) if not isinstance(b, str) else tuple(b.encode("latin1"))


def flow_of(word):
    return Rec(exchange=int(word[:-1]), back=word[-1] == "r")


def frame_of(f):
    o, end, ack = octets(f.octets), bool(f.flags & 1), bool(f.flags & 4)
    n = lambda i, j: int.from_bytes(f.octets[i:j], "big")
    k = f.kind
    if k == 0:
        return Con("DataFrame", f.stream, end, f.padded, o)
    if k == 1:
        return Con("Headers", f.stream, end, ack, f.padded, NONE, o)
    if k == 2:
        return Con("Unknown", k, f.flags, f.stream, o)
    if k == 3:
        return Con("Reset", f.stream, n(0, 4))
    if k == 4:
        return Con("Settings", end, o)
    if k == 5:
        return Con("Push", f.stream, ack, f.padded, 0, o)
    if k == 6:
        return Con("Ping", end, o)
    if k == 7:
        return Con("GoAway", n(0, 4) & 0x7FFFFFFF, n(4, 8), o[8:])
    if k == 8:
        return Con("WindowUpdate", f.stream, n(0, 4) & 0x7FFFFFFF)
    if k == 9:
        return Con("Continuation", f.stream, ack, o)
    return Con("Unknown", k, f.flags, f.stream, o)


def act_of(a):
    k = a[0]
    if k == "Body":
        return Con(k, a[1], octets(a[2]), a[3], bool(a[4]))
    if k == "Head":
        return Con(k, a[1], octets(a[2]), bool(a[3]))
    if k == "Trailers":
        return Con(k, a[1], octets(a[2]))
    if k in ("OldBlock", "Ping"):
        return Con(k, octets(a[1]))
    if k == "Settings":
        return Con(k, tuple(Rec(id=i, value=v) for i, v in a[1]))
    if k == "StreamError":
        return Con(k, a[1], a[2], octets(a[3] or b""))
    return Con(k, *a[1:])


def reading_of(r):
    if isinstance(r, str):
        return Con(r)
    return Con("Fields", tuple(Rec(name=octets(f.name), value=octets(f.value), never=bool(f.never)) for f in r))


def event_of(w, names):
    k = w[0]
    if k == "join":
        return Con("Join", int(w[1]), names.index(w[2]))
    if k == "read":
        return Con("Read", int(w[1]), octets(bytes.fromhex(w[2])))
    if k == "post":
        job = Con("Cancel", int(w[4])) if w[3] == "cancel" else Con(w[3].capitalize())
        return Con("Post", int(w[1]), int(w[2]), job)
    if k == "obey":
        return Con("Obey", int(w[1]), tuple(int(x) for x in w[2:]))
    return Con(k.capitalize(), *map(int, w[1:]))


KINDS = {"route": "Route", "stream-idle": "StreamIdle", "connection-idle": "ConnectionIdle"}


def cause_of(w):
    name = "".join(p.capitalize() for p in w[0].split("-"))
    if name == "Timeout":
        return Con(name, Con(KINDS[w[1]]))
    return Con(name, *map(int, w[1:]))


def buffer_of(flow, w):
    if w[0] == "send":
        return Con("Send", flow_of(flow))
    return Con("Write", int(w[1])) if w[0] == "write" else Con("Stage", flow_of(flow), int(w[1]))


def note_of(line, names):
    w = line.split(" ")
    k, rest = w[0], w[1:]
    hx = lambda s: octets(bytes.fromhex(s))
    if k == "turn":
        return Con("Turn", int(w[1]), event_of(w[2:], names))
    if k == "in":
        return Con("Arrive", flow_of(w[1]), hx(w[2]))
    if k == "move":
        return Con("Move", flow_of(w[1]), int(w[2]), int(w[3]))
    if k == "frame":
        return Con("Frame", int(w[1]), flow_of(w[2]), int(w[3]), w[4] == "end")
    if k in ("pause", "resume"):
        return Con(k.capitalize(), flow_of(w[1]), buffer_of(w[1], w[2:]))
    if k == "head":
        return Con("Head", int(w[1]), int(w[2]), hx(w[3]))
    if k == "answer":
        return Con("Answer", int(w[1]), hx(w[2]))
    if k == "doom":
        return Con("Doom", int(w[1]), cause_of(w[2:]))
    if k == "close":
        return Con("Close", int(w[1]), int(w[2]), Con(w[3].capitalize()))
    if k == "fire":
        return Con("Fire", Con(KINDS[w[1]]), int(w[2]))
    return Con(k.capitalize(), *map(int, rest))


def step_of(x, names):
    if isinstance(x, str):
        return Con("Noted", note_of(x, names))
    if "took" in x:
        return Con("Marked", Con("Took", x["took"], frame_of(x["frame"]), act_of(x["act"]), reading_of(x["reading"])))
    if "broke" in x:
        return Con("Marked", Con("Broke", x["broke"], x["code"]))
    if "drains" in x:
        return Con("Marked", Con("Drains", x["drains"]))
    return Con("Marked", Con("Picked", x["picked"], x["unit"]))


LIMITS = "write_buffer send_buffer stream_window connection_window max_streams field_list control_frames empty_frames peer_resets quantum frame_size overflow_multiple".split()
TIMEOUTS = "route stream_idle connection_idle stream_idle_min connection_idle_min".split()
ACTIONS = "stop_requests stop_accepting reject_incoming no_keepalive reduce_timeouts reset_streams".split()


def config_value(c):
    opt = lambda v: NONE if v is None else some(octets(v))
    filters = lambda fs: tuple(Con(f[0].capitalize(), *f[1:]) for f in fs)
    routes = tuple(Rec(authority=opt(r.authority), path=opt(r.path), prefix=opt(r.prefix), cluster=octets(r.cluster), request=filters(r.request),
                       response=filters(r.response), hold_limit=r.hold_limit, meter_limit=r.meter_limit, meter_rate=r.meter_rate) for r in c.routes)
    triggers = tuple(Rec(action=t.action if isinstance(t.action, int) else ACTIONS.index(t.action), resource=t.resource,
                         form=Con(t.form[0].capitalize(), *t.form[1:])) for t in c.triggers)
    return Rec(limits=Rec(**{k: getattr(c, k) for k in LIMITS}), timeouts=Rec(**{k: getattr(c, k) for k in TIMEOUTS}),
               clusters=tuple(Rec(name=octets(x.name), address=NONE) for x in c.clusters), routes=routes,
               overload=Rec(resources=tuple(octets(r) for r in c.resources), class_start=c.class_start, triggers=triggers, shed=()))


# ---- the marks and the octets
def events(steps):
    return [s.args[0].args[1] for s in steps if s.args[0].name == "Turn"]


def untrue(config, steps):
    """Where the marks aren't those of the octets: frames, faults and field blocks, by the model's own reader. None where they are."""
    frames, hpack = importlib.import_module("h2model.frames"), importlib.import_module("h2model.hpack")
    conns = {}

    def left(c):
        """A frame or fault that is left to take on an open connection."""
        x = conns.get(c)
        if x is None or not x["open"]:
            return None
        if x["client"] and not x["prefaced"]:
            front = x["unread"][:24]
            if front != frames.PREFACE[: len(front)]:
                return ("bad", None)
            if len(front) < 24:
                return None
            x["unread"], x["prefaced"] = x["unread"][24:], True
        read = frames.read_frame(x["unread"], config.f["limits"].f["frame_size"])
        return None if read == frames.NEED else read

    for i, step in enumerate(steps):
        n = step.args[0]
        if n.name == "Turn":
            if any(left(c) for c in conns):
                return "octets left at step %d" % i
            e = n.args[1]
            if e.name in ("Accept", "Join"):
                conns[e.args[0]] = {"open": True, "client": e.name == "Accept", "prefaced": False, "unread": b"",
                                    "decoder": hpack.Decoder(4096, config.f["limits"].f["field_list"])}
            if e.name == "Read" and e.args[0] in conns:
                conns[e.args[0]]["unread"] += bytes(e.args[1])
        elif n.name == "Close" and n.args[0] in conns:
            conns[n.args[0]]["open"] = False
        elif n.name == "Broke":
            read = left(n.args[0])
            if not read or read[0] != "bad":
                return "no fault at step %d" % i
            if n.args[1] != (1 if read[1] is None else frames.FAULT_CODE[read[1]]):
                return "another fault at step %d" % i
        elif n.name == "Took":
            c, frame, act, reading = n.args
            read = left(c)
            if not read or read[0] != "whole" or frame_of(read[1]) != frame:
                return "another frame at step %d" % i
            conns[c]["unread"] = conns[c]["unread"][read[2]:]
            block = act.args[2] if act.name == "StreamError" else act.args[1] if act.name in ("Head", "Trailers") else act.args[0] if act.name == "OldBlock" else ()
            if act.name in ("Head", "Trailers", "OldBlock") or block:
                try:
                    given = reading_of(conns[c]["decoder"].decode(bytes(block)))
                except hpack.ListTooLong:
                    given = Con("TooLong")
                except hpack.HpackFault:
                    given = Con("Refused")
            else:
                given = Con("NoBlock")
            if given != reading:
                return "another reading at step %d" % i
    return "octets left at the end" if any(left(c) for c in conns) else None
