#!/usr/bin/env python3
"""Draws a tape as h2plot does, from the definitions: the lengths of all buffers at each moment of the whole tape, and of them what
each column shows. It reads the tape at once and keeps every moment, so it is for small tapes: it writes the expected pictures of
crates/plot_rows.

    plot.py [--all | [--flow F] [--conn C]] [--from K] [--to K] < TAPE > PICTURE
    plot.py --rows < crates/plot_rows/stdin > crates/plot_rows/stdout
"""
import re
import sys

COLUMNS, WIDTH, LEFT, PLOT, END, AXIS, LANE, BAR, WORDS = 960, 1240, 190, 960, 1150, 104, 40, 9, 182
STYLE = """<style>
text{font:11px 'DejaVu Sans',Verdana,sans-serif;fill:#222}
.T{font-size:16px;font-weight:bold}
.b{font-weight:bold;text-anchor:end}
.e{font-size:10px;text-anchor:end}
.s,.k{font-size:9px}
.k{text-anchor:middle}
.f{fill:none;stroke:#ccc;pointer-events:none}
.l{fill:#004488;fill-opacity:.15;stroke:#004488;stroke-width:1.2;pointer-events:none}
.o{fill:#ddaa33;pointer-events:none}
.m,.h{fill:none;stroke:#222;stroke-width:.7;pointer-events:none}
.m{stroke-dasharray:7 3}
.h{stroke-dasharray:2 3}
.p1{fill:#bbb}
.p2{fill:#777}
.p3{fill:#222}
.d{fill:#bb5566;stroke:#fff;stroke-width:.6}
.c{fill:#222;stroke:#fff;stroke-width:.6}
.t{fill:#ddaa33;stroke:#222;stroke-width:.6}
.g{fill:none;stroke:#e6e6e6}
.x{fill:none;stroke:#222}
.n{fill:#fff;fill-opacity:0}
</style>
"""
LEGEND = """<path class="l" d="M190 72V66H198V60 64H206V72"/>
<text x="212" y="70">octets in a buffer</text>
<path class="m" d="M330 66H356"/>
<text x="362" y="70">limit</text>
<path class="h" d="M400 66H426"/>
<text x="432" y="70">half of it</text>
<rect class="o" x="496" y="61" width="20" height="10"/>
<text x="522" y="70">above the limit</text>
<rect class="p1" x="622" y="62" width="14" height="9"/>
<rect class="p2" x="636" y="62" width="14" height="9"/>
<rect class="p3" x="650" y="62" width="14" height="9"/>
<text x="670" y="70">read-disable count 1, 2, 3 or more</text>
<path class="d" d="M880 66m-5-4h10l-5 9z"/>
<text x="890" y="70">doom</text>
<path class="c" d="M940 66m-4-4h8v8h-8z"/>
<text x="950" y="70">close</text>
<path class="t" d="M998 66m0-5l5 5l-5 5l-5-5z"/>
<text x="1008" y="70">timer</text>
<text x="1052" y="70">(point at things for their words)</text>
"""
SHAPES = {"d": "m-5-4h10l-5 9z", "c": "m-4-4h8v8h-8z", "t": "m0-5l5 5l-5 5l-5-5z"}


class Refused(Exception):
    pass


# The words of notes and of a summary's lines. A capital letter is a number below 2^32, but X and K (2^64), V
# (2^63), T (2^60), W (2^16) and S+ (2^31); f is a flow, h octets, n a name, b a buffer that pauses a flow. A `+` says that it is 1 at least.
WIRE = ["accept C", "join C n", "read C h", "gone C", "room C S+", "tick T", "post C V drain", "post C V cancel V", "post C V look", "obey V P..."]
PLAIN = ["open S+", "pair S+ S+", "in S+ h", "end S+", "reset S+", "room S+"]
CAUSES = ["done", "too-large", "overload", "overflow", "early-end", "peer-reset C", "stream-error C", "timeout route", "timeout stream-idle",
          "timeout connection-idle", "conn-lost C", "refused W", "posted C X"]
NOTES = ["turn K+ " + e for e in WIRE + PLAIN] + ["doom X " + c for c in CAUSES] + [
    "start X C S D", "in f h", "move f P N", "frame C f N more", "frame C f N end", "out C N+", "pause f b", "resume f b", "gone X",
    "head C S h", "answer C h", "credit C S N", "waste C S N", "fire route X", "fire stream-idle X", "fire connection-idle X",
] + ["close C D " + c for c in ("protocol", "lost", "drained", "idle", "overload", "flood")]
PEAKS = ["peak recv f N X+", "peak stage f N N X+", "peak send f N X+", "peak write C N X+", "paused f b X X", "paused f b X -"]
LAST = ["done X", "refused line N", "refused length session"]


def number(word, most, least=0):
    return re.fullmatch(r"0|[1-9][0-9]*", word) and least <= int(word) <= most


def is_word(word, form):
    if not re.fullmatch(r"[A-Zfhn]\+?", form):
        return word == form
    least = 1 if form.endswith("+") else 0
    kind = form[0]
    if kind == "f":
        return word[-1:] in ("q", "r") and number(word[:-1], 2**64 - 1)
    if kind == "h":
        return re.fullmatch(r"([0-9a-f]{2})+", word)
    if kind == "n":
        return re.fullmatch(r"[a-z0-9_-]{1,64}", word)
    return number(word, {"X": 2**64 - 1, "K": 2**64 - 1, "T": 2**60 - 1, "V": 2**63 - 1, "W": 2**16 - 1, "S": 2**31 - 1 if least else 2**32 - 1}.get(kind, 2**32 - 1), least)


def has_form(line, form):
    words, forms = line.split(" "), form.split(" ")
    if forms[-1] == "P...":
        return len(words) >= len(forms) - 1 and all(map(is_word, words, forms[:-1])) and all(number(w, 2**32 - 1) for w in words[len(forms) - 1:])
    if "b" in forms:
        at = forms.index("b")
        buffers = {"send": ["send"], "stage": ["stage", "N" if forms[0] == "paused" else "N+"], "write": ["write", "C"]}
        forms[at:at + 1] = buffers.get(words[at] if at < len(words) else "", ["no-buffer"])
    return len(words) == len(forms) and all(map(is_word, words, forms))


def is_one(line, forms):
    first = line.split(" ")[0]
    return any(has_form(line, form) for form in forms if form.split(" ")[0] == first)


def read_tape(octets):
    """The notes, the limits, and the words of the last line, if it came."""
    lines = octets.decode("latin-1").split("\n")
    rest = lines.pop()
    notes, peaks, last = [], {}, None
    part = 0
    for number_, line in enumerate(lines + [rest] * (len(rest) > 131071), 1):
        if len(line) > 131071:
            raise Refused(number_, "Long", "more than 131,071 octets")
        if part == 2:
            raise Refused(number_, "BehindEnd", "a line behind the tape's last line")
        w = line.split(" ")
        if is_one(line, NOTES):
            if part:
                raise Refused(number_, "BehindSummary", "a note behind a line of the summary")
            notes.append(line)
        elif is_one(line, PEAKS):
            part = 1
            if w[0] == "peak":
                key = {"recv": lambda: (w[2], "recv"), "send": lambda: (w[2], "send"), "stage": lambda: (w[2], int(w[3])), "write": lambda: ("write", int(w[2]))}[w[1]]()
                peaks[key] = int(w[-2])
        elif is_one(line, LAST):
            part, last = 2, w
        else:
            raise Refused(number_, "NoNote", "neither a note of a tape nor a line of its summary")
    return notes, peaks, last


def flow_key(f):
    return (int(f[:-1]), f[-1] == "r")


class World:
    """The lengths of all buffers, by what each note says of them."""

    def __init__(self):
        self.places, self.write, self.pauses, self.resumes = {}, {}, {}, {}
        self.closed, self.doomed, self.sends, self.relays = set(), {}, set(), {}

    def note(self, line):
        w = line.split(" ")
        kind = w[0]
        if kind == "turn" and w[2] == "gone" and int(w[3]) in self.closed:
            self.write[int(w[3])] = 0
        if kind == "start" and w[3] == "0":
            self.relays[int(w[1])] = (int(w[4]), int(w[2]))
        if kind == "in":
            x, back = flow_key(w[1])
            n = len(w[2]) // 2
            if x in self.relays:
                self.add(self.relays[x][back], n)
            else:
                self.places.setdefault((x, back), {}).setdefault(0, 0)
                self.places[x, back][0] += n
        if kind == "move":
            places = self.places.setdefault(flow_key(w[1]), {})
            p, n = int(w[2]), int(w[3])
            n = min(n, places.get(p, 0))
            if n:
                places[p] -= n
                places[p + 1] = places.get(p + 1, 0) + n
        if kind == "frame":
            flow = flow_key(w[2])
            places = self.places.setdefault(flow, {})
            top = max(places, default=0)
            n = min(int(w[3]), places.get(top, 0))
            if n:
                places[top] -= n
                self.sends.add(flow)
            self.add(int(w[1]), 9 + n)
        if kind in ("head", "answer"):
            self.add(int(w[1]), len(w[-1]) // 2)
        if kind == "credit":
            self.add(int(w[1]), 13)
        if kind == "out":
            self.write[int(w[1])] = max(0, self.write.get(int(w[1]), 0) - int(w[2]))
        if kind == "close":
            self.closed.add(int(w[1]))
            if w[3] == "lost":
                self.write[int(w[1])] = 0
        if kind == "doom":
            for back in (False, True):
                for p in self.places.get((int(w[1]), back), {}):
                    self.places[int(w[1]), back][p] = 0
            self.doomed[int(w[1])] = True
        if kind in ("pause", "resume"):
            flow = flow_key(w[1])
            counts = self.pauses if kind == "pause" else self.resumes
            counts[flow] = counts.get(flow, 0) + 1
            if w[2] == "send":
                self.sends.add(flow)

    def add(self, c, n):
        self.write[c] = self.write.get(c, 0) + n

    def levels(self):
        """What is drawn of this moment: ('place', flow, p), ('write', c) and ('count', flow)."""
        all_ = {("write", c): n for c, n in self.write.items()}
        for flow, places in self.places.items():
            for p, n in places.items():
                all_["place", flow, p] = n
        for flow, n in self.pauses.items():
            if flow[0] not in self.doomed:
                all_["count", flow] = max(0, n - self.resumes.get(flow, 0))
        return all_


class Picture:
    def __init__(self, notes, peaks, last, first=1, to=None, lanes=None):
        self.peaks, self.last, self.lanes = peaks, last, lanes or "highest"
        world, turn = World(), 0
        moments = []  # (turn, levels) after each note
        self.turns, self.marks, self.dooms = [], {"d": [], "c": [], "t": []}, {}
        started = False
        for line in notes:
            w = line.split(" ")
            if w[0] == "turn":
                turn += 1
            if to is not None and turn > to:
                turn = turn
                continue
            world.note(line)
            moments.append((turn, world.levels()))
            if w[0] == "turn":
                self.turns.append((turn, line))
            kind = {"doom": "d", "close": "c", "fire": "t"}.get(w[0])
            if kind:
                self.marks[kind].append((turn, line))
            if w[0] == "doom":
                self.dooms.setdefault(int(w[1]), (turn, line))
        self.world, self.moments, self.first = world, moments, first
        self.end = min(turn, to) if to is not None else turn
        drawn = max(self.end - first, 0)
        self.width = 1
        while drawn // self.width >= COLUMNS:
            self.width *= 2
        self.columns = drawn // self.width + 1
        self.text, self.y = [], AXIS + 10

    def column(self, turn):
        return max(turn - self.first, 0) // self.width

    def x(self, column):
        return LEFT + min(column, self.columns) * PLOT // self.columns

    def spans(self, key):
        """What a level is before the first column, and of each column in which it changed (column, low, high, last): the least, the
        greatest and the last that it changed to."""
        base, level, spans = 0, 0, []
        for turn, levels in self.moments:
            new = levels.get(key, 0)
            if turn < self.first:
                base = level = new
                continue
            if new == level:
                continue
            column = self.column(turn)
            if spans and spans[-1][0] == column:
                _, low, high, _ = spans[-1]
                spans[-1] = (column, min(low, new), max(high, new), new)
            else:
                spans.append((column, new, new, new))
            level = new
        return base, spans

    def most(self, key):
        base, spans = self.spans(key)
        return max([base] + [s[2] for s in spans])

    def put(self, text):
        self.text.append(text + "\n")

    def columns_of(self, marks):
        first = {}
        for turn, line in marks:
            if turn < self.first:
                continue
            first.setdefault(self.column(turn), []).append((turn, line))
        return [(column, *of[0], len(of) - 1) for column, of in sorted(first.items())]

    def words(self, line, more):
        cut = line[:60] + (".." if len(line) >= 60 else "")
        return cut + (f" and {more} more" if more else "")

    def mark(self, shape, y, turn, line, more):
        self.put(f'<path class="{shape}" d="M{self.x(self.column(turn))} {y}{SHAPES[shape]}"><title>dispatch {turn}: {self.words(line, more)}</title></path>')

    def events(self):
        for shape, words in (("d", "doom of an exchange"), ("c", "close of a connection"), ("t", "timer")):
            marks = self.columns_of(self.marks[shape])
            if marks:
                self.put(f'<text class="e" x="{WORDS}" y="{self.y + 10}">{words}</text>')
                for _, turn, line, more in marks:
                    self.mark(shape, self.y + 6, turn, line, more)
                self.y += 16
        self.y += 6

    def limit(self, key):
        if key[0] == "write":
            return self.peaks.get(("write", key[1]))
        flow, p = key[1], key[2]
        name = f"{flow[0]}{'r' if flow[1] else 'q'}"
        if p == 0:
            return self.peaks.get((name, "recv"))
        stage = self.peaks.get((name, p))
        if stage is None and p == max(self.world.places[flow]):
            return self.peaks.get((name, "send"))
        return stage

    def name(self, key):
        if key[0] == "write":
            return f"write buffer {key[1]}"
        flow, p = key[1], key[2]
        name = f"{flow[0]}{'r' if flow[1] else 'q'}"
        if p == 0:
            return name + " receive buffer"
        stage = (name, p) in self.peaks
        is_last = p == max(self.world.places[flow])
        if not is_last:
            return f"{name} stage {p}"
        if flow in self.world.sends or (not stage and (name, "send") in self.peaks):
            return name + " send buffer"
        return f"{name} stage {p}" if stage else f"{name} place {p}"

    def rank(self, key, number):
        limit, most = self.limit(key), self.most(key)
        return (True, most * 1000 // limit, -number) if limit else (False, most, -number)

    def draw(self):
        self.events()
        flows = sorted(self.world.places)
        buffers = [("place", f, p) for f in flows for p in range(max(self.world.places[f], default=-1) + 1)]
        buffers += [("write", c) for c in sorted(self.world.write)]
        buffers = [b for b in buffers if self.most(b) > 0]
        if self.lanes == "highest":
            ranks = sorted(self.rank(b, i) for i, b in enumerate(buffers))
            least = ranks[-40] if len(ranks) >= 40 else None
            picked = [b for i, b in enumerate(buffers) if least is None or self.rank(b, i) >= least]
        elif self.lanes == "all":
            picked = buffers
        else:
            flow, conn = self.lanes
            picked = [b for b in buffers if (b[0] == "place" and b[1] == flow) or (b[0] == "write" and b[1] == conn)]
        bars = 0
        all_flows = sorted(set(flows) | set(self.world.pauses))
        for flow in all_flows:
            mine = [b for b in picked if b[0] == "place" and b[1] == flow]
            for b in mine:
                self.lane(b)
            relayed = flow[0] in self.world.relays and self.most(("count", flow)) > 0
            shown = relayed and (self.lanes == "all" or (self.lanes == "highest" and bars < 40) or (self.lanes not in ("all", "highest") and self.lanes[0] == flow))
            if mine or shown:
                bars += 1
                self.bar(flow)
        for b in picked:
            if b[0] == "write":
                self.lane(b)
        return self.head(len(buffers), len(picked)) + "".join(self.text) + "</svg>\n"

    def lane(self, key):
        most, limit, name = self.most(key), self.limit(key), self.name(key)
        is_recv = key[0] == "place" and key[2] == 0
        tail = ""
        if limit is not None:
            tail = f", window {limit}" if is_recv else (", no limit" if limit == 0 else f", limit {limit}")
        self.put(f'<text class="b" x="{WORDS}" y="{self.y + 16}">{name}</text>')
        self.put(f'<text class="e" x="{WORDS}" y="{self.y + 31}">max {most}{tail}</text>')
        limit = limit or 0
        top = max(limit, most) if limit <= 8 * most else most
        bottom = self.y + LANE

        def y(level):
            return bottom - min(level * LANE // top, LANE)

        base, spans = self.spans(key)
        self.put(f'<rect class="f" x="{LEFT}" y="{self.y}" width="{PLOT}" height="{LANE}"/>')
        path = "".join(f"H{self.x(c)}V{y(low)} {y(high)} {y(last)}" for c, low, high, last in spans)
        self.put(f'<path class="l" d="M{LEFT} {bottom}V{y(base)}{path}H{END}V{bottom}"/>')
        if limit and not is_recv:
            for level, a, b in self.parts(base, spans):
                a, b = self.x(a), self.x(b)
                if level > limit and b > a:
                    self.put(f'<rect class="o" x="{a}" y="{y(level)}" width="{b - a}" height="{y(limit) - y(level)}"/>')
        if 0 < limit <= top:
            self.put(f'<path class="m" d="M{LEFT} {y(limit)}H{END}"/>')
            if not is_recv:
                self.put(f'<path class="h" d="M{LEFT} {y(limit // 2)}H{END}"/>')
        self.put(f'<text class="s" x="{END + 4}" y="{self.y + 9}">{top}</text>')
        self.put(f'<text class="s" x="{END + 4}" y="{bottom}">0</text>')
        if limit and self.y + 15 <= y(limit) <= self.y + 26:
            self.put(f'<text class="s" x="{END + 4}" y="{y(limit) + 4}">{limit} limit</text>')
        self.y += LANE + 8

    def parts(self, base, spans):
        """Levels with the columns from and to which they stand: between the columns of changes the level, in them the greatest."""
        level, column = base, 0
        for c, _, high, last in spans:
            yield level, column, c
            yield high, c, c + 1
            level, column = last, c + 1
        yield level, column, self.columns

    def bar(self, flow):
        name = f"{flow[0]}{'r' if flow[1] else 'q'}"
        self.put(f'<text class="e" x="{WORDS}" y="{self.y + 8}">{name} read-disable count</text>')
        self.put(f'<rect class="f" x="{LEFT}" y="{self.y}" width="{PLOT}" height="{BAR}"/>')
        base, spans = self.spans(("count", flow))
        for count, a, b in self.parts(base, spans):
            a, b = self.x(a), self.x(b)
            if count and b > a:
                self.put(f'<rect class="p{min(count, 3)}" x="{a}" y="{self.y}" width="{b - a}" height="{BAR}"><title>read-disable count {count}</title></rect>')
        doom = self.dooms.get(flow[0])
        if doom and doom[0] >= self.first:
            self.mark("d", self.y + 4, doom[0], doom[1], 0)
        self.y += BAR + 14

    def step(self):
        turns = self.columns * self.width
        ten = 1
        while True:
            for step in (ten, 2 * ten, 5 * ten):
                if step * PLOT // turns >= 90:
                    return step
            ten *= 10

    def head(self, buffers, lanes):
        height, below = self.y + 44, self.y + 16
        last = self.last
        end = "the tape was cut"
        if last and last[0] == "done":
            end = "the tape is whole"
        elif last and last[1] == "line":
            end = "the session was refused at line " + last[2]
        elif last:
            end = "the session was refused for its length"
        s = [f'<svg xmlns="http://www.w3.org/2000/svg" width="{WIDTH}" height="{height}" viewBox="0 0 {WIDTH} {height}">\n<title>The buffers of a tape</title>\n', STYLE,
             '<rect width="100%" height="100%" fill="#fff"/>\n', '<text class="T" x="16" y="26">The buffers of a tape</text>\n',
             f'<text class="" x="16" y="46">dispatches {self.first} to {self.end}, {self.width} in a column; {lanes} of the {buffers} buffers that ever held an octet; {end}</text>\n',
             LEGEND]
        for yy in (AXIS - 8, below):
            s.append(f'<text class="e" x="{LEFT - 30}" y="{yy}">dispatch (number)</text>\n')
        for yy in (AXIS - 8, below):
            s.append(f'<text class="s" x="1190" y="{yy}">octets</text>\n')
        for yy in (AXIS, self.y):
            s.append(f'<path class="x" d="M{LEFT} {yy}H{END}"/>\n')
        step, turn = self.step(), self.first
        while turn <= self.end:
            x = self.x(self.column(turn))
            s.append(f'<path class="g" d="M{x} {AXIS - 4}V{self.y + 4}"/>\n')
            for yy in (AXIS - 8, below):
                s.append(f'<text class="k" x="{x}" y="{yy}">{turn}</text>\n')
            gap = step - turn % step
            turn += gap + (step if 2 * gap < step else 0)
        for column, _, line, more in self.columns_of(self.turns):
            a, b = self.x(column), self.x(column + 1)
            s.append(f'<rect class="n" x="{a}" y="{AXIS}" width="{b - a}" height="{self.y - AXIS}"><title>{self.words(line, more)}</title></rect>\n')
        return "".join(s)


class Usage(Exception):
    pass


def choice(words):
    """First and last dispatch and lanes, of the words."""
    got, words = {}, list(words)
    while words:
        option = words.pop(0)
        if option in got or option not in ("--all", "--flow", "--conn", "--from", "--to"):
            raise Usage
        got[option] = True
        if option == "--all":
            continue
        if not words:
            raise Usage
        word = words.pop(0)
        if not is_word(word, {"--flow": "f", "--conn": "C"}.get(option, "X")):
            raise Usage
        got[option] = flow_key(word) if option == "--flow" else int(word)
    named = got.get("--flow"), got.get("--conn")
    first, to = got.get("--from", 1), got.get("--to")
    if first == 0 or (to is not None and to < first) or ("--all" in got and named != (None, None)):
        raise Usage
    return first, to, "all" if "--all" in got else named if named != (None, None) else "highest"


def picture(words, tape):
    first, to, lanes = choice(words)
    notes, peaks, last = read_tape(tape)
    return Picture(notes, peaks, last, first, to, lanes).draw()


def rows(text):
    """What crates/plot_rows prints for its cases."""
    out = []
    for case in text.split("## ")[1:]:
        name, words, *lines = case.split("\n")[:-1]
        words = words.split(" ")[1:]
        faults = [line for line in lines if line.startswith(("% read", "% write"))]
        is_cut = "% cut" in lines
        tape = ""
        for line in lines:
            if line.startswith("% "):
                continue
            front, star, times = line.partition("*")
            tape += front + (front[-2:] * (int(times) - 1) if star else "") + "\n"
        tape = tape[:-1] if is_cut else tape
        out.append(f"## {name}\n")
        try:
            drawn = picture(words, tape.encode())
            if any("read" in fault for fault in faults):
                out.append("5 ReadFault\n")
            elif faults:
                out.append("6 WriteFault\n")
            else:
                out.append("0 Done\n" + drawn)
        except Usage:
            out.append("2 Usage\n")
        except Refused as refused:
            out.append(f"4 Session: line {refused.args[0]}: {refused.args[1]}\n")
    return "".join(out)


def main(words):
    if words == ["--rows"]:
        sys.stdout.write(rows(sys.stdin.read()))
        return 0
    try:
        sys.stdout.write(picture(words, sys.stdin.buffer.read()))
    except Usage:
        return 2
    except Refused as refused:
        sys.stderr.write(f"h2plot: line {refused.args[0]}: {refused.args[2]}\n")
        return 4
    return 0


if __name__ == "__main__":
    sys.exit(main(sys.argv[1:]))
