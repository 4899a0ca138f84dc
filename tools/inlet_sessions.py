#!/usr/bin/env python3
"""inlet_sessions.py MODEL PROGRAM FROM TO: plays the connections of generated sessions through wire_inlet.

MODEL is the folder of the independent model, whose gen.py makes a session of each number from FROM to before TO. PROGRAM is
wire_rows, built. Each connection of a session is one case of its table: the octets that came on it, the streams that this side
opened, ended and closed between them, and the acts and fields that the model gave. The program plays each case whole, octet by
octet, in pieces of 16,384 and cut in two at each place (at some 4,000 places of more octets), and prints what differs; each
difference from the model's answers is printed too. With `-` for PROGRAM the cases are printed, with `+` what they must answer.
"""
import pathlib
import subprocess
import sys
import threading

sys.dont_write_bytecode = True
sys.path.insert(0, sys.argv[1] if len(sys.argv) == 5 else sys.exit(__doc__))

import gen  # noqa: E402
from h2model import frames, hpack, replay, wire  # noqa: E402
from h2model.session import Session  # noqa: E402

SHOWN = 64


def shown(octets):
    """Octets in hexadecimal, or how many there are of more than 64, with the sum of each times its place."""
    if len(octets) > SHOWN:
        total = sum(place * octet for place, octet in enumerate(octets, 1))
        return f"[{len(octets)} octets, sum {total % 2**64}]"
    return bytes(octets).hex() or "-"


def end_word(last):
    return "last" if last else "more"


def act_words(act):
    name, rest = act[0], act[1:]
    match name:
        case "Body":
            stream, octets, padded, last = rest
            return f"body {stream} {shown(octets)} {padded} {end_word(last)}"
        case "Head":
            stream, block, last = rest
            return f"head {stream} {shown(block)} {end_word(last)}"
        case "Trailers":
            return f"trailers {rest[0]} {shown(rest[1])}"
        case "StreamError":
            stream, code, block, _ = rest
            return f"stream {stream} {code} {shown(block or b'')}"
        case "Settings":
            return " ".join(["settings", *(f"{number}={value}" for number, value in rest[0])])
        case "OldBlock" | "Ping":
            return f"{'old' if name == 'OldBlock' else 'ping'} {shown(rest[0])}"
    words = {"WindowUp": "window", "PeerReset": "reset", "ConnError": "connection"}
    return " ".join([words.get(name, name.lower()), *map(str, rest)])


def octet_words(octets):
    if len(octets) <= SHOWN and all(0x20 <= octet <= 0x7E for octet in octets):
        return octets.decode()
    return "0x" + shown(octets)


def field_words(fields):
    return " | ".join(f"{'!' if f.never else ''}{octet_words(f.name)}={octet_words(f.value)}" for f in fields)


class Played(Session):
    """A connection's session, which writes down its case: the calls, and what each answers."""

    def __init__(self, client_side, max_streams, empty_frames):
        super().__init__(client_side, max_streams, empty_frames)
        self.calls, self.answers = [], []
        self.octets, self.given, self.taken = b"", 0, 0     # what came, up to where a call gives it, and a frame took it
        self.acts, self.streams, self.decoder = [], {0}, None

    def call(self, words, answer):
        self.flush(self.taken, "need")
        self.calls.append(words)
        self.answers.append(answer)

    def flush(self, end, last):
        """The octets up to a place come, with the acts of their frames, and this is behind them."""
        if end > self.given:
            self.calls.append(self.octets[self.given : end].hex())
            self.answers.append(", ".join([*self.acts, last]))
            self.given, self.acts = end, []

    def take_preface(self, octets):
        used, is_bad = super().take_preface(octets)
        self.taken += used
        return used, is_bad

    def accept(self, frame):
        act = super().accept(frame)
        words = [act_words(act)]
        if frame.kind == frames.DATA and (content := frame.padded + len(frame.octets)):
            words.append(f"content {content}")
        block = {"Head": 2, "Trailers": 2, "OldBlock": 1, "StreamError": 3}.get(act[0])
        if block and (act[0] != "StreamError" or act[block]):
            words.append(f"({self.read(act[block])})")
        if frame.kind == frames.WINDOW_UPDATE:
            words.append("update")
        self.acts.append(" ".join(words))
        self.streams.add(frame.stream)
        return act

    def read(self, block):
        try:
            return field_words(self.decoder.decode(block))
        except hpack.ListTooLong:
            return "too long"
        except hpack.HpackFault:
            return "refused"

    def open_stream(self):
        stream = super().open_stream()
        self.call("open", "none left" if stream is None else f"opened {stream}")
        return stream

    def end_local(self, stream):
        super().end_local(stream)
        self.call(f"end {stream}", "ended")

    def close_stream(self, stream):
        # A reset by the peer closes its stream within `accept`.
        super().close_stream(stream)
        if sys._getframe(1).f_code.co_name != "_reset":
            self.call(f"close {stream}", "closed")

    def interim(self, stream):
        super().interim(stream)
        self.call(f"interim {stream}", "interim")


class Core(wire.WireCore):
    """The model's core, which says where frames end, and why a read ended."""

    def __init__(self, config):
        super().__init__(config)
        self.reading, self.fault = None, None

    def on_read(self, number, octets):
        conn = self.connections[number]
        if not conn.open:
            return
        played = self.reading = conn.session
        played.octets, self.fault = played.octets + octets, None
        played.decoder = played.decoder or hpack.Decoder(wire.HEADER_TABLE, self.config.field_list)
        super().on_read(number, octets)
        if conn.open or self.fault is not None:
            played.flush(len(played.octets), "need" if self.fault is None else f"fault {self.fault}")
        else:
            played.flush(played.taken, "need")

    def read_frame(self, octets, most):
        read = READ_FRAME(octets, most)
        if read[0] == "whole":
            self.reading.taken += read[2]
        elif read[0] == "bad":
            self.fault = frames.FAULT_CODE[read[1]]
        return read

    def connection_error(self, conn, code):
        if conn.session.preface_left and conn.open:
            self.fault = code
        super().connection_error(conn, code)


READ_FRAME = frames.read_frame


def cases(seed):
    """The cases of a session's connections, and what they answer."""
    frames.read_frame, wire.Session = READ_FRAME, Session
    config, session = gen.make_wire(seed, "wire", None, None)
    config = replay.config_.read_config(config.encode())
    wire.Session = Played
    player = replay.make_player("wire", config)
    core = player.core
    core.__class__ = Core
    core.reading = core.fault = None
    frames.read_frame = core.read_frame
    replay.play(player, session.encode("latin-1"))
    for _, conn in sorted(core.connections.items()):
        played = conn.session
        played.call("greatest", str(played.greatest_peer))
        for stream in sorted(played.streams):
            played.call(f"is_open {stream}", "true" if played.is_open(stream) else "false")
        peer = "client" if conn.is_client else "cluster"
        limits = f"{config.max_streams} {config.empty_frames} {config.field_list} {config.frame_size}"
        case = " ; ".join([f"inlet {peer} {limits}", *played.calls])
        yield len(played.octets), case, case + ": " + " ; ".join(played.answers)


def main():
    program, first, last = sys.argv[2], int(sys.argv[3]), int(sys.argv[4])
    found = [case for seed in range(first, last) for case in cases(seed)]
    if program in ("-", "+"):
        print("\n".join(case[1 if program == "-" else 2] for case in found))
        return 0
    given = "".join(case + "\n" for _, case, _ in found)
    run = subprocess.run([pathlib.Path(program).resolve()], input=given.encode(), capture_output=True, check=True)
    printed = run.stdout.decode().splitlines()
    wanted = [answers for _, _, answers in found]
    for answers in sorted(set(wanted) - set(printed)):
        print("the model has:", answers)
    for line in sorted(set(printed) - set(wanted)):
        print("the program has:", line)
    octets = sum(count for count, _, _ in found)
    print(f"{len(found)} connections of {last - first} sessions, {octets} octets:", "as the model" if printed == wanted else "they differ")
    return int(printed != wanted)


if __name__ == "__main__":
    sys.setrecursionlimit(200_000)
    threading.stack_size(512 * 1024 * 1024)
    ended = []
    thread = threading.Thread(target=lambda: ended.append(main()))
    thread.start()
    thread.join()
    sys.exit(ended[0] if ended else 2)
