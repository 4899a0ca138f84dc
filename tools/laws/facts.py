#!/usr/bin/env python3
"""Writes the wire tapes of rows.py as facts of crates/tape_rows.

    facts.py --model DIR [--list]

Each tape is run by the reference model with its marks, judged, and written with one fact: it is lawful. `broken.py` says how tapes
are broken; each of these stands in proofs/WireBroken*.antt with the law that refuses it."""
import argparse, os, sys, threading

import antt, judge as judging, marked, rows

TOP = judging.TOP
PREFACE = tuple(b"PRI * HTTP/2.0\r\n\r\nSM\r\n\r\n")


def num(n):
    return str(n)


def octets(b):
    """As hex text, the preface by its name."""
    if not b:
        return "[]"
    if b[:24] == PREFACE:
        rest = b[24:]
        return "(preface ++ %s)" % octets(rest) if rest else "preface"
    i = 0
    while i < len(b):                       # a long run of one octet
        j = i
        while j < len(b) and b[j] == b[i]:
            j += 1
        if j - i > 16:
            parts = [octets(b[:i])] * (i > 0) + ["replicate %d %d" % (j - i, b[i])] + [octets(b[j:])] * (j < len(b))
            return "(%s)" % " ++ ".join(parts)
        i = j
    return '(hex (codes "%s"))' % bytes(b).hex()


def value(x, where=None):
    """A value as antt, in parentheses where it needs them."""
    if isinstance(x, bool):
        return "true" if x else "false"
    if isinstance(x, int):
        return str(x)
    if isinstance(x, tuple):
        if x and all(isinstance(i, int) for i in x) and where != "numbers":
            return octets(x)
        return "[]" if not x else "(%s ∷ [])" % " ∷ ".join(value(i) for i in x)
    if isinstance(x, antt.Rec):
        if set(x.f) == {"exchange", "back"}:
            return "(%s %d)" % ("response" if x.f["back"] else "request", x.f["exchange"])
        if set(x.f) == {"name", "value", "never"}:
            return "(field %s %s %s)" % (text(x.f["name"]), text(x.f["value"]), value(x.f["never"]))
        return "record { %s }" % "; ".join("%s = %s" % (k, bare(value(v))) for k, v in x.f.items())
    name = con(x, where)
    if not x.args:
        return name
    inner = WITHIN.get((where, x.name), {})
    return "(%s %s)" % (name, " ".join(value(a, inner.get(i)) for i, a in enumerate(x.args)))


def text(b):
    """Octets of a name or value, as text where they are plain."""
    if not b:
        return "[]"
    if all(33 <= c < 127 and c not in (34, 92) for c in b):
        return '(codes "%s")' % bytes(b).decode()
    return octets(b)


def bare(s):
    return s[1:-1] if s.startswith("(") and s.endswith(")") and s.count("(") == 1 else s


# which type the arguments of a constructor are of, where its constructors stand behind a module's name
ALIAS = {"note": "note", "event": "event", "job": "job", "cause": "cause", "closed": "closed", "kind": "kind", "buffer": "buffer", "act": "act",
         "filter": "filter", "form": "form"}
WITHIN = {("step", "Noted"): {0: "note"}, ("step", "Marked"): {0: "mark"}, ("mark", "Took"): {1: "frame", 2: "act", 3: "reading"}, ("mark", "Picked"): {1: "unit"},
          ("unit", "Farewell"): {1: "closed"}, ("unit", "Put"): {0: "put"}, ("note", "Turn"): {1: "event"}, ("note", "Pause"): {1: "buffer"},
          ("note", "Resume"): {1: "buffer"}, ("note", "Doom"): {1: "cause"}, ("note", "Close"): {2: "closed"}, ("note", "Fire"): {0: "kind"},
          ("event", "Post"): {2: "job"}, ("event", "Obey"): {1: "numbers"}, ("cause", "Timeout"): {0: "kind"}}


def con(x, where):
    return "%s.%s" % (ALIAS[where], x.name) if where in ALIAS else x.name


def step(s):
    t = value(s, "step")
    return t[1:-1] if t.startswith("(") else t


def tape(name, steps, base=None):
    return "abbrev pub %s : WireHistory\n%s =\n    %s" % (name, name, "\n    ∷ ".join([step(s) for s in reversed(steps)] + ["[]"]))


DEFAULTS = None


def config(name, c):
    """As what differs from the configuration of the empty text."""
    d = marked.config_value(marked.REC["config"].read_config(b""))
    out = []
    for part, base in (("limits", "default_limits"), ("timeouts", "default_timeouts")):
        changed = ["%s = %d" % (k, v) for k, v in c.f[part].f.items() if v != d.f[part].f[k]]
        if changed:
            out.append("  %s = record %s { %s };" % (part, base, "; ".join(changed)))
    if c.f["clusters"]:
        out.append("  clusters = %s;" % " ∷ ".join(["cluster %s" % text(x.f["name"]) for x in c.f["clusters"]] + ["[]"]))
    if c.f["routes"]:
        out.append("  routes = %s;" % " ∷ ".join([route(r) for r in c.f["routes"]] + ["[]"]))
    o = c.f["overload"]
    if o.f["triggers"]:
        ts = ["record { action = %d; resource = %d; form = %s }" % (t.f["action"], t.f["resource"], bare(value(t.f["form"], "form"))) for t in o.f["triggers"]]
        out.append("  overload = record default_overload { class_start = %d; triggers = %s };" % (o.f["class_start"], " ∷ ".join(ts + ["[]"])))
    return "abbrev pub %s : Config\n%s = record config_of_empty {\n%s\n}" % (name, name, "\n".join(out))


def route(r):
    filters = lambda fs: "(%s)" % " ∷ ".join([value(f, "filter") for f in fs] + ["[]"]) if fs else "[]"
    opt = lambda v: "None" if v.name == "None" else "(Some %s)" % text(v.args[0])
    return "route %s %s %s %s %s %s" % (opt(r.f["authority"]), opt(r.f["path"]), opt(r.f["prefix"]), text(r.f["cluster"]), filters(r.f["request"]), filters(r.f["response"]))


# what is opaque elsewhere and has to compute here
OPENED = "unfolding static_table varint integer reached stay greatest_of placed in_order"
IMPORTS = """use Rattle.hpack_codec.specs.Encoding.{integer, varint}
use Rattle.hpack_codec.specs.Table.{static_table}
use Rattle.overload_core.specs.ActionStates.{greatest_of}
use Rattle.overload_core.specs.Course.{reached, stay}
use Rattle.scaled_timer.specs.Order.{in_order, placed}
"""
LAWS = "allowed paused counted bounded tied ends in_turn doomed swept answered only licensed may quiet".split()
# the laws of a tape that one search doesn't reach: they are shown front by front
BY_STEP = {"nested_flood": "counted bounded tied answered may quiet", "doom_puts_all_at_once": "bounded answered quiet", "cluster_leaves": "bounded answered quiet",
           "overflow": "bounded", "padded_body": "bounded answered", "trailers": "bounded answered",
           "send_window": "bounded answered", "two_streams": "counted bounded tied answered quiet", "ended_stream_is_not_shifted": "bounded"}
TOO_LONG = {(tape, law) for tape, laws in BY_STEP.items() for law in laws.split()}


def session_of(conf, lines, model):
    if conf == "CASE":
        return (open("%s/cases/%s.toml" % (model, lines)).read(), open("%s/cases/%s.session" % (model, lines)).read().split("\n")[:-1])
    return conf, ["h2replay-session 1 wire"] + lines


HINTS = "(lit≤, lit<, inl, inr)"


TYPES = {"allowed": "EachFollows (MayStand (wire_setup %s))", "paused": "EachFollows (PausesInOrder (wire_setup %s))",
         "counted": "EachFollows (BeforeOthers (IsCounted (wire_setup %s)))", "bounded": "AtEachMoment (IsBounded (wire_setup %s))",
         "tied": "AtEachMoment (IsTied (wire_setup %s))", "in_turn": "EachFollows (InTurn (wire_setup %s))",
         "answered": "EachFollows (Answers (wire_session %s))", "may": "EachFollows (MayStandOnWire %s)",
         "quiet": "EachFollows (BeforeTurn (IsQuiet (wire_session %s)))"}
NO_FACTS = {"Ticks"}     # too long for the checker's search; judged here alone
PIECE = 14          # steps that one search takes


def fronts(tape, name, c, steps):
    """Facts of the fronts of a tape, each upon the one before, and the name of the last."""
    out, last = [], None
    for upto in range(PIECE, len(steps) - 4, PIECE):
        said = "%s_%s_%d" % (tape, name, upto)
        hints = HINTS if last is None else HINTS[:-1] + ", %s)" % last
        out.append("pub %s : %s (drop %d %s)\n%s\n%s = search %s" % (said, TYPES[name] % c, len(steps) - upto, tape, OPENED, said, hints))
        last = said
    return out, last


# and where a front is too much, each step by itself; of some tapes that is too long to be worth its lines, and no fact stands
STEP_BY_STEP = {("trailers", "answered"), ("send_window", "answered")} | {
    (tape, law) for tape in ("cluster_leaves", "two_streams", "nested_flood", "doom_puts_all_at_once") for law in BY_STEP[tape].split()}
TAPE_ALONE = set()


def by_step(steps):
    return "".join("(search %s , " % HINTS for s in steps) + "search %s" % HINTS + ")" * len(steps)


def fact(name, c, steps):
    before, fields = [], []
    for law in LAWS:
        if (name, law) in STEP_BY_STEP:
            fields.append("    %s = %s;\n" % (law, by_step(steps)))
            continue
        out, last = fronts(name, law, c, steps) if (name, law) in TOO_LONG else ([], None)
        before += out
        fields.append("    %s = search %s;\n" % (law, HINTS if last is None else HINTS[:-1] + ", %s)" % last))
    said = "pub %s_is_lawful : Lawful %s %s\n%s\n%s_is_lawful = record {\n  lawful = record {\n%s  };\n" % (name, c, name, OPENED, name, "".join(fields))
    return "\n\n".join(before + [said + "  quiet = search (lit≤, lit<);\n  acts = search;\n}"])


def main():
    w = argparse.ArgumentParser(description=__doc__.split("\n")[0])
    w.add_argument("--model", required=True)
    w.add_argument("--out", default=os.path.join(TOP, "crates/tape_rows/proofs"))
    w = w.parse_args()
    marked.load(w.model)
    judge, groups = judging.Judge(), {}
    for group, says, name, conf, lines in rows.ROWS:
        if group in NO_FACTS:
            continue
        t, ls = session_of(conf, name if conf == "CASE" else lines, w.model)
        c, steps = marked.run(t, ls)
        found = judge.faults(c, antt.history(steps)), marked.untrue(c, steps)
        judging.forget(judge)
        if found != ([], None):
            print("not lawful:", name, found)
        groups.setdefault(group, []).append("-- %s\n%s\n\n%s" % (says, config("config_of_" + name, c), tape(name, steps))
                                              + ("" if name in TAPE_ALONE else "\n\n" + fact(name, "config_of_" + name, steps)))
    for group, texts in groups.items():
        path = os.path.join(w.out, "Wire%s.antt" % group)
        open(path, "w").write("-- Lawful tapes of wire sessions: %s.\n" % group.lower() + IMPORTS + "\n" + "\n\n".join(texts) + "\n")
        print(path, len(texts))


if __name__ == "__main__":
    threading.stack_size(512 * 1024 * 1024)
    t = threading.Thread(target=main)
    t.start()
    t.join()
