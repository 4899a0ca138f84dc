#!/usr/bin/env python3
"""Tries the definitions of the load shed points against the reference model.

    shed.py --model DIR [--from 0] [--to 300]

DIR has the reference model (h2model). Each generated session goes through the model's shed points over a core that only tells
what it was given, and through the definitions of `shed_points` and `shed_run` as they stand: which events are dispatched, which
lines stand in the tape and where, and the whole text are compared, and that the shed list is one that a wire session may have, and
as many are shed at each point as there are wholes in its sum."""
import argparse, os, random, sys

sys.path.insert(0, os.path.dirname(os.path.abspath(__file__)))
import antt
from antt import Con, Rec
from marked import event_of

TOP = os.path.dirname(os.path.dirname(os.path.dirname(os.path.abspath(__file__))))
POINTS = ("Accept", "Read", "Drain")
NAMES = (tuple(b"a"),)


def joined(octet, words):
    return tuple(bytes([octet]).join(bytes(w) for w in words))


def more_of_std(spec):
    """What these texts need besides the laws: lines of words, digits, and hexadecimal digits, which are a crate's of the kit."""
    words = {"join_with_byte": (joined, 2), "decimal": (lambda n: tuple(b"%d" % n), 1), "codes": (lambda s: tuple(s.encode()), 1)}
    words["encode_lower"] = (lambda o: tuple(bytes(o).hex().encode()), 1)
    words["slice_index_or"] = (lambda xs, i, d: xs[i] if i < len(xs) else d, 3)
    for name, (f, arity) in words.items():
        if name not in antt.STD:
            antt.STD[name], antt.ARITY[name] = f, arity
    resolve = spec.resolve
    spec.resolve = lambda file, name: None if file["uses"].get(name, ("",))[0].startswith("hex.") else resolve(file, name)


class Told:
    """A core that tells what it is given, one note a dispatch, and two where octets leave."""

    def __init__(self, config):
        self.tape, self.log, self.turns = self, [], 0

    def note(self, kind, number, point, conn, state):
        self.log.append((self.turns, (number, point, conn, state)))

    def dispatch(self, event, text):
        self.turns += 1
        self.log.append((self.turns, event, text))


class Shed:
    def __init__(self, model):
        sys.path.insert(0, model)
        from h2model import config, shed, texts

        shed.WireCore = Told
        self.config, self.shed, self.texts = config, shed, texts
        spec = antt.spec(TOP)
        more_of_std(spec)
        n = spec.named
        self.judged, self.dispatched = n("shed_points", "Shedding", "judged"), n("shed_points", "ShedList", "dispatched")
        self.shed_at, self.sum_at = n("shed_points", "Shedding", "shed_at"), n("shed_points", "Shedding", "sum_at")
        self.lines, self.text_with = n("shed_run", "ShedLines", "shed_lines"), n("shed_run", "ShedText", "text_with")
        self.may = n("session_lines", "WireOrder", "may_follow_wire")

    def rows(self, config):
        forms = {"threshold": "Threshold", "scaled": "Scaled"}
        return tuple(Rec(point=Con(r.point.capitalize()), resource=r.resource, form=Con(forms[r.form[0]], *r.form[1:])) for r in config.shed)

    def session(self, seed):
        """A configuration with a shed table, the model's player, and the lines that it took."""
        rng = random.Random(seed)
        resources = ["r%d" % i for i in range(rng.randint(1, 3))]
        text = '[[clusters]]\nname = "a"\n[overload]\nresources = [%s]\n' % ", ".join('"%s"' % r for r in resources)
        for _ in range(rng.randint(0, 6)):
            text += '[[overload.shed]]\npoint = "%s"\nresource = "%s"\n' % (rng.choice(self.shed.POINTS), rng.choice(resources))
            least = rng.randint(0, 999_999)
            text += rng.choice(("value = %d\n" % least, "scaling = %d\nsaturation = %d\n" % (least, rng.randint(least + 1, 1_000_000))))
        config = self.config.read_config(text.encode())
        player = self.shed.ShedPlayer(config)
        player.take_line(b"h2replay-session 1 wire")
        lines = [line for line in (self.line(rng, player, len(resources)) for _ in range(rng.randint(1, 60))) if player.take_line(line.encode())]
        return config, player, lines

    def line(self, rng, player, resources):
        kind = rng.choice("accept accept accept read read read gone room tick post obey obey join".split())
        order, conn = player.order, rng.randint(1, max(1, player.order.greatest))
        if kind in ("accept", "join"):
            return "%s %d%s" % (kind, order.greatest + rng.randint(1, 2), " a" if kind == "join" else "")
        if kind == "post":
            poster = rng.choice((0, 1, 4_294_967_294, 4_294_967_295))
            return "post %d %d look" % (poster, order.posts.get(poster, 0))
        if kind == "obey":
            return "obey %d %s" % (order.version + 1, " ".join(str(rng.choice((0, rng.randint(0, 1_200_000), 1_000_000))) for _ in range(resources)))
        return {"read": "read %d 00" % conn, "gone": "gone %d" % conn, "room": "room %d 5" % conn, "tick": "tick 7"}[kind]

    def try_one(self, seed):
        """What differs, or nothing, and how many events and shed ones there were."""
        config, player, lines = self.session(seed)
        rows = self.rows(config)
        es = tuple(event_of(line.split(" "), ["a"]) for line in reversed(lines))
        js, log = self.judged(rows, es), player.core.log
        steps, text, told = [], "", []
        for entry in log:
            if len(entry) == 3:
                k, event, spelled = entry
                steps.append(Con("Noted", Con("Turn", k, event_of(spelled.split(" "), ["a"]))))
                text += "turn %d %s\n" % (k, spelled)
                if event[0] == "room":
                    steps.append(Con("Noted", Con("Out", event[1], event[2])))
                    text += "out %d %d\n" % event[1:3]
            else:
                told.append(entry)
                text += "shed %d %s %d %d\n" % entry[1]
        placed = [(p.args[0], tuple(p.args[1].f[w] for w in ("number", "point", "conn", "state"))) for p in reversed(self.lines(js))]
        placed = [(k, (n, p.name.lower(), c, s)) for k, (n, p, c, s) in placed]
        out = self.dispatched(js)
        checks = {
            "events": [s.args[0].args[1] for s in steps if s.args[0].name == "Turn"] == list(reversed(out)),
            "lines": placed == told,
            "text": bytes(self.text_with(NAMES, self.lines(js), antt.history(steps))).decode() == text,
            "order": all(self.may(len(config.resources), out[i + 1:], out[i]) for i in range(len(out))),
            "counts": all(self.shed_at(Con(p), js) == self.sum_at(rows, Con(p), js) // 1_000_000 for p in POINTS),
        }
        return [name for name, same in checks.items() if not same], len(lines), len(told)


def main():
    w = argparse.ArgumentParser(description=__doc__.split("\n")[0])
    w.add_argument("--model", required=True)
    w.add_argument("--from", dest="start", type=int, default=0)
    w.add_argument("--to", type=int, default=300)
    w = w.parse_args()
    shed, events, lines, bad = Shed(w.model), 0, 0, 0
    for seed in range(w.start, w.to):
        faults, n, k = shed.try_one(seed)
        events, lines, bad = events + n, lines + k, bad + bool(faults)
        if faults:
            print("%d: %s" % (seed, ", ".join(faults)))
    print("%d sessions, %d events, %d shed, %d differ" % (w.to - w.start, events, lines, bad))
    sys.exit(1 if bad else 0)


if __name__ == "__main__":
    main()
