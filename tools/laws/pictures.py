#!/usr/bin/env python3
"""Tries the definitions of tape_plot on generated wire sessions.

    pictures.py --model DIR [--from 0] [--to 20] [--events N]

Each session is run through the reference model in DIR. After each step it is asked whether frames come from the top places
(`AreFromTop`), and whether what the tape alone tells of each place and write buffer (`places`, `written`) is what lies there
(`place`, `out` of tape_laws); at the end, whether what the columns show of each (`changes`, `before`) is what tools/plot.py draws."""
import argparse, os, sys, threading

sys.path.insert(0, os.path.dirname(os.path.abspath(__file__)))
sys.path.insert(0, os.path.dirname(os.path.dirname(os.path.abspath(__file__))))
import antt, judge, marked
import plot

# what the definitions of tape_plot use of the library besides
antt.STD.update(get_or=lambda xs, i, d: xs[i] if i < len(xs) else d, set=lambda xs, i, x: xs[:i] + (x,) + xs[i + 1:] if i < len(xs) else xs)
antt.ARITY.update(get_or=3, set=3)


def main():
    w = argparse.ArgumentParser(description=__doc__.split("\n")[0])
    w.add_argument("--model", required=True)
    w.add_argument("--from", dest="start", type=int, default=0)
    w.add_argument("--to", type=int, default=20)
    w.add_argument("--events", type=int)
    w = w.parse_args()
    marked.load(w.model)
    judges, bad = judge.Judge(), 0
    n = judges.spec.named
    places, written, at = n("tape_plot", "Levels", "places"), n("tape_plot", "Levels", "written"), n("tape_plot", "Levels", "at")
    from_top, changes, before = n("tape_plot", "Tops", "AreFromTop"), n("tape_plot", "Spans", "changes"), n("tape_plot", "Spans", "before")
    place, out = n("tape_laws", "World", "place"), n("tape_laws", "World", "out")
    shown = n("tape_plot", "Levels", "shown_count")
    for seed in range(w.start, w.to):
        text, session = marked.generated(seed, w.events, None)
        config, tape = marked.run(text, session.split("\n")[:-1])
        setup = judges.session(config).f["setup"]
        lines = [line for line in marked.LAST_LINES if isinstance(line, str)]
        drawn = plot.Picture([line for line in lines if line.split(" ")[0] not in ("peak", "paused", "done", "refused")], {}, None)
        history = antt.history(tape)
        flows = sorted(set(drawn.world.places) | set(drawn.world.pauses))
        named = {f: antt.Rec(exchange=f[0], back=f[1]) for f in flows}
        found = []
        if not from_top(setup, history):
            found.append("not from the top places")
        h = history
        while h != ():
            for f in flows:
                for p in range(6):
                    if at(places(named[f], h), p) != len(place(setup, named[f], p, h)):
                        found.append(f"{f} {p} at step {h.size}")
            for c in drawn.world.write:
                if written(c, h) != len(out(setup, c, h)):
                    found.append(f"write {c} at step {h.size}")
            h = h.tail
        levels = {("write", c): (lambda v, c=c: written(c, v)) for c in drawn.world.write}
        levels.update({("place", f, p): (lambda v, f=f, p=p: at(places(named[f], v), p)) for f in flows for p in range(4)})
        levels.update({("count", f): (lambda v, f=f: shown(named[f], v)) for f in flows})
        for key, level in levels.items():
            for first, width in ((1, 1), (1, 4), (3, 2)):
                drawn.first, drawn.width = first, width
                base, spans = drawn.spans(key)
                if before(level, first, history) != base:
                    found.append(f"{key} before {first}")
                want = {s[0]: s[1:] for s in spans}
                for j in range(drawn.end // width + 2):
                    got = changes(level, first, width, j, history)
                    got = None if got == antt.NONE else tuple(got.args[0].f[x] for x in ("low", "high", "last"))
                    if got != want.get(j):
                        found.append(f"{key} column {j} of {width} from {first}: {got} and {want.get(j)}")
        judge.forget(judges)
        bad += bool(found)
        print(f"session {seed}: {len(tape)} steps, {len(levels)} numbers", *found[:5], sep="\n    " if found else " ", flush=True)
    print(f"{w.to - w.start} sessions, {bad} with a difference")
    return 1 if bad else 0


if __name__ == "__main__":
    threading.stack_size(512 * 1024 * 1024)
    status = []
    thread = threading.Thread(target=lambda: status.append(main()))
    thread.start()
    thread.join()
    sys.exit(status[0] if status else 70)
