#!/usr/bin/env python3
"""Drops, doubles and swaps each of the last steps of wire tapes, and lists the mutants that no law refuses.

    mutants.py --model DIR [--from 0] [--to 20] [--last 15] [--events N]

Each survivor is also judged by the model's own judge (lawful.py), over its tape without marks."""
import argparse, collections, importlib, random, sys, threading

import antt, judge as judging, marked


def text_of(lines):
    return "".join(x + "\n" for x in lines if isinstance(x, str))


def mutants(n, last):
    """(kind, place, the order of the steps)."""
    for i in range(max(1, n - last), n):
        yield "dropped", i, [*range(i), *range(i + 1, n)]
        yield "doubled", i, [*range(i + 1), i, *range(i + 1, n)]
        if i + 1 < n:
            yield "swapped", i, [*range(i), i + 1, i, *range(i + 2, n)]


def varied(rng, step):
    """The step with one of its numbers changed by one, or as it is."""
    def change(x, k):
        if isinstance(x, int) and not isinstance(x, bool):
            return max(0, x + rng.choice([-1, 1])) if k == 0 else x
        if isinstance(x, bool):
            return not x
        if isinstance(x, antt.Con) and x.args:
            i = rng.randrange(len(x.args))
            return antt.Con(x.name, *[change(a, 0) if j == i else a for j, a in enumerate(x.args)])
        if isinstance(x, antt.Rec):
            f = rng.choice(list(x.f))
            return antt.Rec(**{g: change(v, 0) if g == f else v for g, v in x.f.items()})
        if isinstance(x, tuple) and x:
            return x[:-1] if rng.random() < 0.5 else x + x[-1:]
        return x
    return change(step, 1)


def strangers(rng, steps, last, tries):
    """Steps of the same tape, some a little changed, put in or put instead: (kind, place, steps)."""
    for _ in range(tries):
        i = rng.randrange(max(1, len(steps) - last), len(steps) + 1)
        s = rng.choice(steps)
        if rng.random() < 0.6:
            s = varied(rng, s)
        if s.args[0].name == "Turn":
            continue
        if rng.random() < 0.5:
            yield "put in", i, steps[:i] + [s] + steps[i:]
        elif i < len(steps):
            yield "put instead", i, steps[:i] + [s] + steps[i + 1:]


# What lawful.py says of the last lines, which are those of the tape before its steps were changed.
OF_LAST_LINES = ("the last line should be", "the summary differs")


def accepts(lawful, config_text, session, tape):
    """What lawful.py says: None where it accepts, the last lines aside."""
    try:
        lawful.check("wire", lawful.proto.Config(config_text), session.encode(), tape.encode())
    except lawful.Bad as bad:
        return None if bad.text.startswith(OF_LAST_LINES) else bad.text[:100]
    return None


def main():
    w = argparse.ArgumentParser(description=__doc__.split("\n")[0])
    w.add_argument("--model", required=True)
    w.add_argument("--from", dest="start", type=int, default=0)
    w.add_argument("--to", type=int, default=20)
    w.add_argument("--last", type=int, default=15)
    w.add_argument("--events", type=int)
    w.add_argument("--strangers", type=int, default=0, help="so many steps put in or put instead, in place of drops and swaps")
    w = w.parse_args()
    marked.load(w.model)
    lawful = importlib.import_module("lawful")
    judge = judging.Judge()
    refused, survivors, tried = collections.Counter(), [], 0
    for seed in range(w.start, w.to):
        text, session = marked.generated(seed, w.events)
        lines = session.split("\n")[:-1]
        config, steps = marked.run(text, lines)
        raw = list(marked.LAST_LINES)
        if judge.faults(config, antt.history(steps)) or marked.untrue(config, steps):
            print("session %d isn't lawful" % seed)
        rng = random.Random(seed)
        made_of = strangers(rng, steps, w.last, w.strangers) if w.strangers else (
            (kind, i, [steps[k] for k in order], order) for kind, i, order in mutants(len(steps), w.last))
        for kind, i, made, *order in made_of:
            if made == steps:
                continue
            tried += 1
            if marked.events(made) != marked.events(steps):
                refused["the events"] += 1
                continue
            if marked.untrue(config, made):
                refused["the marks"] += 1
                continue
            found = judge.faults(config, antt.history(made))
            if found:
                refused[found[0].split(":")[0]] += 1
                continue
            same = [x for x in made if x.name == "Noted"] == [x for x in steps if x.name == "Noted"]
            says = "the same tape" if same else accepts(lawful, text, session, text_of([raw[k] for k in order[0]])) if order else "not asked"
            if not order:
                i = min(i, len(made) - 1)
                steps_i = made[i]
            else:
                steps_i = steps[i]
            survivors.append((seed, kind, i, antt.short(steps_i), says))
            print("session %d, step %d %s: %s; lawful.py: %s" % (seed, i, kind, antt.short(steps_i)[:160], says), flush=True)
        judging.forget(judge)
    print("%d mutants: %s; %d survive" % (tried, dict(refused.most_common()), len(survivors)))


if __name__ == "__main__":
    threading.stack_size(512 * 1024 * 1024)
    t = threading.Thread(target=main)
    t.start()
    t.join()
