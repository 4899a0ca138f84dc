#!/usr/bin/env python3
"""Judges wire sessions by the definitions of wire_laws and wire_rules.

    judge.py --model DIR [--from 0] [--to 300] [--events N] [--hostile P]

DIR has the reference model (h2model, gen.py). Each generated session is run through it with marks, and every law of
`IsWireLawful` and `IsWireWhole` that is decided by computing is computed. What fails is printed with its law and step."""
import argparse, os, sys, threading, time

sys.path.insert(0, os.path.dirname(os.path.abspath(__file__)))
import antt, marked

TOP = os.path.dirname(os.path.dirname(os.path.dirname(os.path.abspath(__file__))))


class Judge:
    def __init__(self, top=TOP):
        self.spec = antt.spec(top)
        n = self.spec.named
        self.session, self.acts = n("wire_rules", "WireSession", "wire_session"), n("wire_laws", "Truth", "ActsRight")
        self.lawful, self.quiet = n("tape_laws", "Lawful", "IsLawful"), n("tape_laws", "Quiet", "IsQuiet")

    def faults(self, config, history, whole=True):
        """The laws that the history breaks: a list of paths, the law first, with the step."""
        session = self.session(config)
        out = []
        laws = [(name, f) for name, f in self.fields("tape_laws.Lawful.IsLawful", session, history)]
        laws.append(("acts", lambda: antt.each_follows(self.acts(config), history)))
        if whole:
            laws.append(("last", lambda: self.quiet(session, history)))
        for name, f in laws:
            antt.TRACE.clear()
            if not f():
                out.append("%s: %s" % (name, " < ".join(reversed(antt.TRACE))))
        return out

    def fields(self, key, session, history):
        d = self.spec.defs[key]
        for name, text in d["fields"]:
            tree = antt.Parser(text).expr()
            code = self.spec.code(d, tree, {"session": "v_session", "history": "v_history", "Mark": "None"})
            f = eval("lambda v_session, v_history: %s" % code, self.spec.globals)
            yield name, (lambda f=f: f(session, history))


def forget(judge):
    """Empties what was remembered."""
    antt.PASSED.clear()
    antt.CELLS.clear()
    for f in judge.spec.fns.values():
        if isinstance(f, antt.Fn) and hasattr(f.base, "memo"):
            f.base.memo.clear()


def main():
    w = argparse.ArgumentParser(description=__doc__.split("\n")[0])
    w.add_argument("--model", required=True)
    w.add_argument("--from", dest="start", type=int, default=0)
    w.add_argument("--to", type=int, default=300)
    w.add_argument("--events", type=int)
    w.add_argument("--hostile", type=float)
    w = w.parse_args()
    marked.load(w.model)
    judge, bad, steps = Judge(), 0, 0
    for seed in range(w.start, w.to):
        text, session = marked.generated(seed, w.events, None if w.hostile is None else w.hostile / 100)
        config, tape = marked.run(text, session.split("\n")[:-1])
        steps += len(tape)
        t = time.time()
        found = judge.faults(config, antt.history(tape))
        forget(judge)
        if found:
            bad += 1
        print("session %d: %d steps, %.1f s%s" % (seed, len(tape), time.time() - t, "" if not found else "\n    " + "\n    ".join(found)), flush=True)
    print("%d sessions, %d steps, %d with a law that doesn't hold" % (w.to - w.start, steps, bad))
    return 1 if bad else 0


if __name__ == "__main__":
    threading.stack_size(512 * 1024 * 1024)
    status = []
    t = threading.Thread(target=lambda: status.append(main()))
    t.start()
    t.join()
    sys.exit(status[0] if status else 1)
