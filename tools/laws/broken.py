#!/usr/bin/env python3
"""Wire tapes that break one law each, made of fronts of the rows, and written as facts of crates/tape_rows.

    broken.py --model DIR [--out DIR]

A case is a name, a sentence, the row, how many of its newest steps are left out, the steps that come instead, and the law that refuses."""
import argparse, os, re, sys, threading

import antt, facts, judge as judging, marked, rows
from antt import Con, Rec

q = lambda x: Rec(exchange=x, back=False)
r = lambda x: Rec(exchange=x, back=True)
hx = lambda s: tuple(bytes.fromhex(s))
N = lambda name, *args: Con("Noted", Con(name, *args))
picked = lambda c, u: Con("Marked", Con("Picked", c, u))
took = lambda c, frame, act, reading=Con("NoBlock"): Con("Marked", Con("Took", c, frame, act, reading))
turn = lambda k: N("Turn", k, Con("Tick", 0))
control = lambda s: Con("Put", Con("Control", hx(s)))
doom = lambda x, cause, *args: N("Doom", x, Con(cause, *args))
RST = "0000040300000000"


class Row:
    def __init__(self, steps):
        self.steps = steps

    def at(self, what, nth=0):
        """The place of the nth step with this note or mark; negative counts from the end."""
        found = [i for i, s in enumerate(self.steps) if s.args[0].name == what or s.args[0].name == "Picked" and s.args[0].args[1].name == what]
        return found[nth]

    def number(self, upto):
        return sum(1 for s in self.steps[:upto] if s.args[0].name == "Turn") + 1


# name, sentence, row, (step, nth, 1 where it stays), new steps from the oldest as a function of the row's steps and the cut
CASES = [
    ("head_not_framed", "the request's head was picked, and DATA goes without it", "padded_body", ("Picked", 3, 1), lambda s, i: [N("Frame", 2, q(1), 10, False)]),
    ("goaway_at_will", "a GOAWAY with no close behind it", "whole_exchange", ("Gone", -1, 0), lambda s, i: [picked(1, Con("Farewell", 0, Con("Idle")))]),
    ("goaway_and_no_close", "a GOAWAY before a close that doesn't come", "bad_frame", ("Close", 0, 0), lambda s, i: [turn(4)]),
    ("close_without_goaway", "a connection error closes without its GOAWAY, though there is room", "bad_frame", ("Farewell", 0, 0), lambda s, i: [N("Close", 1, 6, Con("Protocol"))]),
    ("close_without_cause", "a connection is closed for nothing", "whole_exchange", ("Gone", -1, 0), lambda s, i: [N("Close", 1, 1, Con("Protocol"))]),
    ("lost_close_while_there", "a connection that isn't lost is closed as lost", "whole_exchange", ("Gone", -1, 0), lambda s, i: [N("Close", 1, 0, Con("Lost"))]),
    ("settings_unanswered", "SETTINGS has no acknowledgement", "no_route", ("Picked", 2, 0), lambda s, i: [turn(4)]),
    ("answer_from_nowhere", "a control frame that waits for nobody", "whole_exchange", ("Gone", -1, 0), lambda s, i: [N("Answer", 1, hx("000000040100000000"))]),
    ("answer_changed", "a control frame with other octets than those that were put", "no_route", ("Answer", 2, 0), lambda s, i: [N("Answer", 1, hx("000000040000000000"))]),
    ("head_changed", "a request goes on with another path", "whole_exchange", ("Head", 0, 0), lambda s, i: [N("Head", 2, 1, hx("00000701050000000120828684010162"))]),
    ("head_on_another_stream", "a request goes on on stream 3 where 1 is next", "whole_exchange", ("Head", 0, 0), lambda s, i: [N("Head", 2, 3, hx("00000701050000000320828684010161"))]),
    ("reply_changed", "404 is answered as 503", "no_route", ("Head", 0, 0), lambda s, i: [N("Head", 1, 1, hx("000006010500000001200803353033"))]),
    ("start_from_nowhere", "an exchange begins without a request", "whole_exchange", ("Gone", -1, 0), lambda s, i: [N("Start", 2, 1, 3, 2)]),
    ("start_unanswered", "a request begins no exchange", "whole_exchange", ("Start", 0, 0), lambda s, i: [picked(2, Con("HeadOf", q(1)))]),
    ("start_to_nobody", "a request for which there is a connection goes to none", "whole_exchange", ("Start", 0, 0), lambda s, i: [N("Start", 1, 1, 1, 0)]),
    ("start_out_of_number", "the first exchange has number 2", "whole_exchange", ("Start", 0, 0), lambda s, i: [N("Start", 2, 1, 1, 2)]),
    ("refusal_left_out", "a request that no route takes lives on", "no_route", ("Doom", 0, 0), lambda s, i: [turn(4)]),
    ("refused_otherwise", "a request that no route takes is refused with 503", "no_route", ("Doom", 0, 0), lambda s, i: [doom(1, "Refused", 503)]),
    ("done_too_early", "an exchange is done whose response hasn't come", "whole_exchange", ("Turn", 3, 0), lambda s, i: [doom(1, "Done")]),
    ("early_end_of_both", "an exchange of which both ends are framed is doomed as ended early", "whole_exchange", ("Doom", 0, 0), lambda s, i: [doom(1, "EarlyEnd")]),
    ("lives_on_after_its_end", "an exchange whose response has ended lives on", "whole_exchange", ("Doom", 0, 0), lambda s, i: [turn(5)]),
    ("cancelled_for_nothing", "an exchange is cancelled without a post", "whole_exchange", ("Turn", 3, 0), lambda s, i: [doom(1, "Posted", 0, 0)]),
    ("credit_too_early", "a window update that isn't due", "padded_body", ("Turn", 3, 0), lambda s, i: [N("Credit", 1, 0, 13)]),
    ("credit_of_another_amount", "the first window update by 5", "whole_exchange", ("Credit", 0, 0), lambda s, i: [N("Credit", 1, 0, 5)]),
    ("first_credit_left_out", "the configured window is never granted", "whole_exchange", ("Credit", 0, 0), lambda s, i: [turn(2)]),
    ("waste_left_out", "padding is neither in a buffer nor wasted", "padded_body", ("Waste", 0, 0), lambda s, i: [turn(4)]),
    ("waste_from_nowhere", "waste that didn't come", "whole_exchange", ("Gone", -1, 0), lambda s, i: [N("Waste", 1, 1, 5)]),
    ("body_left_out", "half of a body doesn't arrive", "meter", ("Arrive", 0, 0), lambda s, i: [N("Arrive", q(1), hx("0011223344")), N("Waste", 1, 1, 5), turn(4)]),
    ("body_changed", "another body arrives", "meter", ("Arrive", 0, 0), lambda s, i: [N("Arrive", q(1), hx("ffffffffffffffffffff"))]),
    ("sent_past_the_window", "ten octets go where the stream's window has four", "send_window", ("Frame", 0, 0), lambda s, i: [N("Frame", 1, r(1), 10, True)]),
    ("end_left_out", "the last octets go without END_STREAM", "padded_body", ("Frame", -1, 0), lambda s, i: [N("Frame", 1, r(1), 2, False)]),
    ("end_too_early", "END_STREAM goes with octets behind it", "meter", ("Frame", 0, 0), lambda s, i: [N("Frame", 2, q(1), 5, True)]),
    ("data_before_its_head", "DATA goes before its head", "meter_and_hold", ("HeadOf", 0, 0), lambda s, i: [N("Move", q(1), 2, 10), N("Frame", 2, q(1), 10, True)]),
    ("meter_lets_more_go", "a Meter lets six octets go with five tokens", "meter", ("Move", 1, 0), lambda s, i: [N("Move", q(1), 1, 6)]),
    ("meter_too_early", "a Meter lets octets go before its 50 ms", "meter", ("Turn", 3, 0), lambda s, i: [N("Turn", 4, Con("Tick", 49)), N("Move", q(1), 1, 5)]),
    ("hold_lets_go_too_early", "a Hold lets octets go before the body's end", "reset_by_memory", ("Turn", 3, 0), lambda s, i: [N("Move", q(1), 1, 64)]),
    ("hold_overfilled", "eleven octets in a Hold of ten", "hold_413", ("Doom", 0, 0), lambda s, i: [N("Move", q(1), 0, 11)]),
    ("head_passes_its_hold", "a head goes before its body has come whole to the Hold", "meter_and_hold", ("Turn", 3, 0), lambda s, i: [picked(2, Con("HeadOf", q(1)))]),
    ("pause_left_out", "a send buffer rises and no pause stands", "overflow", ("Pause", 0, 0), lambda s, i: [N("Frame", 2, q(1), 16, False)]),
    ("resume_left_out", "the write buffer drained and a flow isn't told", "two_streams", ("Resume", -1, 0), lambda s, i: [turn(7)]),
    ("framed_while_above", "DATA goes while the write buffer is above", "two_streams", ("Turn", 3, 0), lambda s, i: [N("Frame", 2, q(2), 30, False)]),
    ("out_of_turn", "DATA goes before an acknowledgement that waits", "cluster_resets", ("Picked", -2, 0), lambda s, i: [picked(2, Con("Put", Con("Control", hx(RST + "0100000008"))))]),
    ("room_unanswered", "octets that have room stay", "two_streams", ("Out", 0, 0), lambda s, i: [turn(5)]),
    ("out_from_nowhere", "octets leave without room", "whole_exchange", ("Gone", -1, 0), lambda s, i: [N("Out", 1, 5)]),
    ("reset_unanswered", "a stream that its cluster reset lives on", "cluster_resets", ("Doom", 0, 0), lambda s, i: [turn(5)]),
    ("fault_unanswered", "DATA before a response's head is let be", "data_before_head", ("Doom", 0, 0), lambda s, i: [N("Waste", 2, 1, 10)]),
    ("flood_unanswered", "a unit for a full list, and the connection stays", "flood_of_pings", ("Close", 0, 0), lambda s, i: [turn(3)]),
    ("resets_unanswered", "more resets than are allowed, and the connection stays", "flood_of_resets", ("Picked", -2, 0), lambda s, i: [N("Gone", 2)]),
    ("loss_unanswered", "an exchange of a lost connection lives on", "lost", ("Doom", 0, 0), lambda s, i: [turn(5)]),
    ("kept_stream_doomed", "a stream that the cluster's GOAWAY keeps is doomed as lost", "cluster_leaves", ("Doom", 0, 1), lambda s, i: [doom(1, "ConnLost", 2)]),
    ("left_out_stream_kept", "a stream that the cluster's GOAWAY leaves out lives on", "cluster_leaves", ("Doom", 0, 0), lambda s, i: [turn(5)]),
    ("later_stream_started", "a request on a draining connection begins an exchange", "drained", ("Turn", 5, 0), lambda s, i: [N("Start", 2, 1, 3, 2)]),
    ("drained_while_alive", "a draining connection closes under its exchange", "drained", ("Turn", 5, 0), lambda s, i: [N("Close", 1, 0, Con("Drained"))]),
    ("drained_and_open", "a draining connection without an exchange stays", "drained", ("Close", 0, 0), lambda s, i: [N("Gone", 1), turn(7)]),
    ("fired_too_early", "a timer fires a millisecond before its time", "route_timeout", ("Turn", 4, 0), lambda s, i: [N("Fire", Con("Route"), 1)]),
    ("fire_left_out", "a timer that is due doesn't fire", "route_timeout", ("Fire", 0, 0), lambda s, i: [turn(6)]),
    ("another_timer_fires", "a timer that isn't due fires", "route_timeout", ("Fire", 0, 0), lambda s, i: [N("Fire", Con("StreamIdle"), 1)]),
    ("timeout_unanswered", "a timer fires and its exchange lives on", "route_timeout", ("Doom", 0, 0), lambda s, i: [turn(6)]),
    ("rejected_and_greeted", "a connection that is rejected is greeted", "rejected", ("Close", 0, 0), lambda s, i: [picked(1, Con("Put", Con("Control", hx("00001204000000000000030000006400040000ffff00060000f000"))))]),
    ("stopped_and_routed", "a request goes on though requests are stopped", "stopped", ("Start", 0, 0), lambda s, i: [N("Start", 1, 1, 1, 2)]),
    ("reset_too_low", "an exchange is reset whose class the state doesn't clear", "reset_by_memory", ("Turn", 4, 0), lambda s, i: [doom(1, "Overload")]),
    ("memory_reset_left_out", "the state clears the exchange's class, and it lives on", "reset_by_memory", ("Doom", 0, 0), lambda s, i: [turn(6)]),
    ("overflow_unanswered", "a send buffer holds more than twice its limit, and its exchange lives on", "overflow", ("Doom", 0, 0), lambda s, i: [N("Frame", 2, q(1), 17, False)]),
    ("doomed_and_named", "a doomed exchange is resumed", "overflow", ("Doom", 0, 1), lambda s, i: [N("Resume", q(1), Con("Send", q(1)))]),
    ("gone_twice", "an exchange is gone twice", "whole_exchange", ("Gone", -1, 1), lambda s, i: [N("Gone", 1)]),
    ("swept_too_early", "an answer goes behind a gone note", "cancelled", ("Picked", -1, 0), lambda s, i: [N("Gone", 1), picked(2, control(RST + "0100000008"))]),
    ("act_of_another_frame", "a PING is taken for nothing", "whole_exchange", ("Took", 1, 0), lambda s, i: [took(1, Con("Ping", False, (0,) * 8), Con("Ignore"))]),
    ("taken_after_its_close", "a frame is taken from a closed connection", "bad_frame", ("Gone", -1, 0), lambda s, i: [took(1, Con("Ping", True, (0,) * 8), Con("Ignore"))]),
]


# where several laws refuse, the one that the case is named after
BREAKS = {"head_not_framed": "answered", "start_unanswered": "answered", "close_without_goaway": "may", "sent_past_the_window": "allowed",
          "framed_while_above": "allowed", "stopped_and_routed": "answered"}


def judged(judge, config, steps):
    """The law that refuses the newest steps, and the path to what is false."""
    h = antt.history(steps)
    found = judge.faults(config, h, False)
    return found


def path_of(trace):
    """The law, the projection to what is false, and which type that is: from `law: at step n: .. < Record.field < .0 < ≡`."""
    out, kind, laws = [], "≡", trace.split(": ", 1)
    for part in laws[1].split(" < ")[1:]:
        if part in ("≡", "≤", "<", "⊥", "⊎"):
            kind = part
        else:
            out.append(part if part.startswith(".") else "." + part.split(".")[-1])
    return laws[0], "".join(out), kind


# paths between large values, told apart by a test
TESTS = {"rejected_and_greeted": "picks_put", "refused_otherwise": "(refuses 404)", "credit_of_another_amount": "(grants_octets 5)",
         "reply_changed": "(λ xs. slice_index xs 14 == 52)", "head_changed": "(λ xs. slice_index xs 15 == 97)"}


def refuted(name, path, kind):
    """How ⊥ follows from the false fact at the path."""
    if name in TESTS:
        return "let k = ap %s %s in cc" % (TESTS[name], path)
    return {"⊥": path, "≤": "omega (arith, %s)" % path, "<": "omega (arith, %s)" % path, "⊎": "elim %s [ inl a ↦ (let k = a in cc) | inr b ↦ b ]" % path}.get(
        kind, "let k = %s in cc" % path)


def main():
    w = argparse.ArgumentParser(description=__doc__.split("\n")[0])
    w.add_argument("--model", required=True)
    w.add_argument("--out", default=os.path.join(judging.TOP, "crates/tape_rows/proofs"))
    w = w.parse_args()
    marked.load(w.model)
    judge, kept = judging.Judge(), {}
    for group, says, name, conf, lines in rows.ROWS:
        t, ls = facts.session_of(conf, name if conf == "CASE" else lines, w.model)
        kept[name] = marked.run(t, ls) + (group,)
    groups, n = {}, 0
    for name, says, row, (what, nth, stays), new in CASES:
        config, steps, group = kept[row]
        try:
            cut = Row(steps).at(what, nth) + stays
        except IndexError:
            print(name, "has no step", what, [s.args[0].name for s in steps])
            continue
        added = new(steps, cut)
        front = steps[:cut]
        if added[-1].args[0].name == "Turn" and added[-1].args[0].args[1].args == (0,):
            k = sum(1 for s in front if s.args[0].name == "Turn") + sum(1 for s in added if s.args[0].name == "Turn")
            added[-1] = turn(k)
        # all but the newest are lawful
        below = judged(judge, config, front + added[:-1])
        found = judged(judge, config, front + added)
        if below or not found:
            print("??", name, "below:", below, "found:", found)
        top = len(front) + len(added)
        at = [f for f in found if re.search(r"at step %d\b" % top, f)]
        if not at:
            print("!!", name, found)
            continue
        at.sort(key=lambda f: f.split(":")[0] != BREAKS.get(name))
        law, path, kind = path_of(at[0])
        print(name, "|", [f.split(":")[0] for f in at], law + path, kind, flush=True)
        dropped = len(steps) - len(front)
        on = " ∷ ".join([facts.step(s) for s in reversed(added)] + [("drop %d %s" % (dropped, row)) if dropped else row])
        law_path = "lawful.%s" % law if law != "acts" else "acts"
        groups.setdefault(group, []).append((row, ("-- %s\npub %s : %s config_of_%s (%s) → ⊥\n" + facts.OPENED + "\n%s w = %s") % (
            says, name, "Begun", row, on, name, refuted(name, "w.%s.0%s" % (law_path, path), kind))))
        judging.forget(judge)
        n += 1
    halves = {"WireBrokenExchanges": ("Requests", "Bodies", "Filters", "Windows", "Shifts", "Errors"), "WireBrokenConnections": ("Floods", "Nested", "Leaving", "GoAway", "Timers", "Ticks", "Overload")}
    for file, gs in halves.items():
        texts = [t for g in gs for _, t in groups.get(g, [])]
        open(os.path.join(w.out, file + ".antt"), "w").write(
            "-- Tapes of wire sessions that break one law each, as it says; what stood before is lawful.\n" + facts.IMPORTS + "\n" + "\n\n".join(texts) + "\n")
    print(n, "broken")


if __name__ == "__main__":
    threading.stack_size(512 * 1024 * 1024)
    t = threading.Thread(target=main)
    t.start()
    t.join()
