#!/usr/bin/env python3
"""Hostile clients and hostile clusters at a running `h2proxy CONFIG`, 20 seconds each, beside a probe that keeps the rules.

    bench/proxy_hostile.py H2PROXY [--replay H2REPLAY] [--seconds N] [--holes] [NAME..]

In each scenario the probe must get each of its answers within two seconds, a client that comes afterwards must be served, and the
resident memory must grow by less than 10 MiB. The proxy has MALLOC_MMAP_THRESHOLD_=32768 in its environment, as OPERATING.md
advises; with --holes it hasn't, and its memory isn't looked at. With H2REPLAY the workers' journals are kept, and replayed: the
first 64 MiB of one that is longer. Debian's package nghttp2-server. Ends with 1 where a scenario fails.
"""
import argparse, collections, contextlib, multiprocessing, os, re, resource, socket, subprocess, sys, tempfile, threading, time

from h2_peer import *
from proxy_http import Answers, Cluster, Proxy, curl

MOST_GROWTH = 10 << 20
MOST_WAIT = 2.0
SESSION = 67_000_000


def resident(pid):
    with open(f'/proc/{pid}/statm') as f:
        return int(f.read().split()[1]) * resource.getpagesize()


class Attackers:
    """Processes that run `attack(port, until, counts)` until a moment: what is counted are connections and what they sent."""

    def __init__(self, attack, port, seconds, count):
        self.conns, self.units = multiprocessing.Value('q', 0), multiprocessing.Value('q', 0)
        self.all = [multiprocessing.Process(target=self.run, args=(attack, port, time.time() + seconds)) for _ in range(count)]
        for process in self.all:
            process.start()

    def run(self, attack, port, until):
        while time.time() < until:
            with contextlib.suppress(OSError):
                for units in attack(port, until):
                    with self.units.get_lock():
                        self.units.value += units
                    if time.time() > until:
                        break
            with self.conns.get_lock():
                self.conns.value += 1
            time.sleep(0.01)

    def live(self):
        return any(process.is_alive() for process in self.all)

    def end(self):
        for process in self.all:
            process.join(10)
            if process.is_alive():
                process.kill()


def causes_of(args, proxy):
    """Replays the front of each journal that has whole lines: why connections were closed and exchanges doomed, and how many."""
    closed, doomed = collections.Counter(), collections.Counter()
    for k in range(1, proxy.workers + 1):
        with open(f'{proxy.journal}.{k}', 'rb') as f:
            text = f.read(SESSION)
        text = text[:text.rindex(b'\n') + 1]
        run = subprocess.run([args.replay, 'wire', proxy.config], input=text, capture_output=True)
        assert run.returncode == 0, ('replay', k, run.returncode, run.stderr[-200:])
        closed.update(cause.decode() for cause in re.findall(rb'^ *close \d+ \d+ (\S+)', run.stdout, re.M))
        doomed.update(cause.decode() for cause in re.findall(rb'^ *doom \d+ (\S+)', run.stdout, re.M))
    return closed, doomed


def beside_a_probe(args, attack, attackers=2, ends=None, files=False, **keys):
    """Runs attackers beside a probe, which the same worker serves. With `ends` the tape has to show that connections were closed for
    this cause (the socket of a client that reads nothing ends a minute later). The cluster has `files`, or else an empty answer to
    everything: nghttpd bears 1,000 resets, and 33 more each second."""
    cluster = Cluster() if files else Answers(b'\x88')
    proxy = Proxy(args, cluster.port, **{'workers': 1, **keys})
    try:
        probe = Probe(proxy.port)
        probe.start()
        time.sleep(1)
        before, spent = resident(proxy.process.pid), proxy.cpu()
        peak = before
        enemies = Attackers(attack, proxy.port, args.seconds, attackers)
        while enemies.live():
            time.sleep(0.25)
            peak = max(peak, resident(proxy.process.pid))
        spent = proxy.cpu() - spent
        enemies.end()
        probe.end()
        code, said, body, err = curl(f'{proxy.url}/one', timeout=10)
        said_of = (f'{enemies.conns.value} connections, {enemies.units.value} units; {len(probe.took)} answers to the probe, '
                   f'the slowest after {max(probe.took, default=0) * 1e3:.0f} ms; {(peak - before) / 1e6:+.1f} MB; {spent:.1f} s of processor time')
        print(f'    {said_of}', flush=True)
        assert not probe.failed, ('the probe', probe.failed[:3])
        assert len(probe.took) > args.seconds, f'{len(probe.took)} answers to the probe'
        assert max(probe.took) < MOST_WAIT, f'the probe waited {max(probe.took):.2f} s'
        assert args.holes or peak - before < MOST_GROWTH, f'{(peak - before) / (1 << 20):.1f} MiB more'
        assert enemies.units.value > 0, 'nothing was sent'
        assert (code, said, body) == (0, '200 2', b'x' if files else b''), ('afterwards', code, said, err)
        assert proxy.process.poll() is None, 'the proxy has ended'
        proxy.process.kill()
        proxy.process.wait()
        if proxy.journal:
            closed, doomed = causes_of(args, proxy)
            print(f'    closed: {dict(closed)}; doomed: {dict(doomed)}', flush=True)
            assert not ends or closed[ends], f'none was closed as {ends}'
    finally:
        proxy.journal = None
        with contextlib.suppress(AssertionError):
            proxy.end()
        cluster.close()


SCENARIOS = {}


def scenario(f):
    SCENARIOS[f.__name__] = f
    return f


def forever(peer, piece, units):
    """Sends the same octets until the proxy ends the connection, and reads nothing."""
    while True:
        peer.send(piece)
        yield units


@scenario
def rapid_resets(args):
    """Streams that are opened and reset at once (CVE-2023-44487)."""
    def attack(port, until):
        peer = Peer(port)
        for n in range(1, 1 << 30, 200):
            peer.send(b''.join(get(stream, b'/one') + reset(stream) for stream in range(n, n + 200, 2)))
            yield 100
    beside_a_probe(args, attack, ends='flood')


@scenario
def made_to_reset(args):
    """Streams that the proxy has to reset: increments of 0 on each."""
    def attack(port, until):
        peer = Peer(port)
        for n in range(1, 1 << 30, 200):
            peer.send(b''.join(post(stream, b'/one') + grant(stream, 0) for stream in range(n, n + 200, 2)))
            yield 100
    beside_a_probe(args, attack, ends='flood')


@scenario
def empty_data(args):
    def attack(port, until):
        peer = Peer(port)
        peer.send(post(1, b'/one'))
        yield from forever(peer, frame(DATA, 0, 1) * 100, 100)
    beside_a_probe(args, attack, ends='protocol')


@scenario
def pings(args):
    def attack(port, until):
        yield from forever(Peer(port), frame(PING, 0, 0, b'01234567') * 500, 500)
    beside_a_probe(args, attack, ends='flood')


@scenario
def settings(args):
    def attack(port, until):
        yield from forever(Peer(port), frame(SETTINGS, 0, 0, setting(INITIAL_WINDOW_SIZE, 1)) * 500, 500)
    beside_a_probe(args, attack, ends='flood')


@scenario
def settings_that_are_read(args):
    """A client that reads what it is sent, so that nothing waits: it costs work, and ends nobody else's."""
    def attack(port, until):
        peer = Peer(port)
        while True:
            peer.send(frame(PING, 0, 0, b'01234567') * 100 + frame(SETTINGS, 0, 0) * 100)
            for _ in range(200):
                peer.next()
            yield 200
    beside_a_probe(args, attack)


@scenario
def continuations(args):
    """A field block that doesn't end."""
    def attack(port, until):
        peer = Peer(port)
        peer.send(frame(HEADERS, END_STREAM, 1, block(b'/one')))
        yield from forever(peer, frame(CONTINUATION, 0, 1, b'\0\x01x\x04long' * 100), 1)
    beside_a_probe(args, attack, ends='protocol')


@scenario
def empty_continuations(args):
    def attack(port, until):
        peer = Peer(port)
        peer.send(frame(HEADERS, END_STREAM, 1, block(b'/one')))
        yield from forever(peer, frame(CONTINUATION, 0, 1) * 50, 50)
    beside_a_probe(args, attack, ends='protocol')


@scenario
def small_windows_and_increments(args):
    """Frames that change windows, a hundred to a stream."""
    def attack(port, until):
        peer = Peer(port)
        peer.send(get(1, b'/big'))
        yield from forever(peer, grant(0, 1) * 250 + grant(1, 1) * 250, 500)
    beside_a_probe(args, attack, files=True)


def stalled(window):
    """Fifty bodies to a client whose windows have this size at first. It reads all that comes, so that its windows hold the bodies back
    and not its socket; bench/proxy_memory.py has clients whose sockets take nothing."""
    def attack(port, until):
        peer = Peer(port, setting(INITIAL_WINDOW_SIZE, window))
        peer.send(b''.join(get(stream, b'/big') for stream in range(1, 101, 2)))
        yield 50
        while time.time() < until:
            peer.conn.settimeout(0.5)
            with contextlib.suppress(TimeoutError):
                kind, flags, stream, payload = peer.next()
                if window and kind == DATA and payload:
                    peer.send(grant(0, len(payload)) + grant(stream, len(payload)))
                    yield 1
        peer.close()
    return attack


@scenario
def windows_of_0(args):
    beside_a_probe(args, stalled(0), attackers=1, files=True, limits='connection_window = 6553500')


@scenario
def windows_of_1(args):
    beside_a_probe(args, stalled(1), attackers=1, files=True, limits='connection_window = 6553500')


@scenario
def slow_heads(args):
    """Field blocks of which an octet comes each second, on fifty connections: each is ended by `connection_idle`."""
    def attack(port, until):
        peers = []
        for _ in range(50):
            peer = Peer(port)
            peer.send(frame(HEADERS, END_STREAM, 1, b'\x82'))
            peers.append(peer)
        yield 50
        while peers and time.time() < until:
            time.sleep(1)
            for peer in list(peers):
                try:
                    peer.send(frame(CONTINUATION, 0, 1, b'\x86'))
                    yield 1
                except OSError:
                    peers.remove(peer)
    beside_a_probe(args, attack, ends='idle', timeouts='connection_idle = 5000')


@scenario
def slow_octets(args):
    """Requests of which an octet comes each tenth of a second, on fifty connections."""
    def attack(port, until):
        peers = [socket.create_connection((HOST, port), timeout=5) for _ in range(50)]
        octets = PREFACE + frame(SETTINGS, 0, 0) + get(1, b'/one')
        for place in range(len(octets)):
            time.sleep(0.1)
            for peer in peers:
                peer.sendall(octets[place:place + 1])
            yield 50
        for peer in peers:
            peer.close()
    beside_a_probe(args, attack, timeouts='connection_idle = 5000')


@scenario
def silent(args):
    """Connections on which nothing comes, and such that end their sending side, two hundred each."""
    def attack(port, until):
        peers = []
        for n in range(400):
            peer = socket.create_connection((HOST, port), timeout=5)
            if n % 2:
                peer.sendall(PREFACE)
                peer.shutdown(socket.SHUT_WR)
            peers.append(peer)
            yield 1
        time.sleep(max(0, min(3, until - time.time())))
        for peer in peers:
            peer.close()
    beside_a_probe(args, attack, attackers=1)


def churn(port, until):
    """A hundred connections that come and go at once."""
    peers = []
    with contextlib.suppress(OSError):
        for _ in range(100):
            peer = Peer(port)
            peer.send(get(1, b'/one'))
            peers.append(peer)
    yield len(peers)
    for peer in peers:
        peer.close()


@scenario
def connections_above_the_most(args):
    beside_a_probe(args, churn, max_connections=50)


@scenario
def few_files(args):
    """Sixty-four open files, and more clients than that."""
    before = resource.getrlimit(resource.RLIMIT_NOFILE)
    wrapped = argparse.Namespace(**{**vars(args), 'h2proxy': args.few})
    assert before[0] > 64
    beside_a_probe(wrapped, churn)


class Rude:
    """A cluster that runs `handle(conn)` for each connection, in a thread."""

    def __init__(self, handle):
        self.handle, self.listener, self.conns, self.lives = handle, socket.create_server((HOST, 0)), 0, True
        self.port = self.listener.getsockname()[1]
        threading.Thread(target=self.run, daemon=True).start()

    def run(self):
        while self.lives:
            with contextlib.suppress(OSError):
                conn, _ = self.listener.accept()
                self.conns += 1
                threading.Thread(target=self.one, args=(conn,), daemon=True).start()

    def one(self, conn):
        with contextlib.suppress(OSError), conn:
            conn.settimeout(10)
            with contextlib.suppress(OSError):
                self.handle(conn)
            conn.shutdown(socket.SHUT_RDWR)  # the attackers' processes have it open, too

    def close(self):
        self.lives = False
        self.listener.close()


def exactly(conn, n):
    parts = bytearray()
    while len(parts) < n:
        more = conn.recv(n - len(parts))
        if not more:
            raise ConnectionError('ended')
        parts += more
    return bytes(parts)


def requests_of(conn):
    """Greets the proxy, and gives the stream of each request."""
    exactly(conn, len(PREFACE))
    conn.sendall(frame(SETTINGS, 0, 0))
    while True:
        head = exactly(conn, 9)
        exactly(conn, int.from_bytes(head[:3], 'big'))
        if head[3] == SETTINGS and not head[4] & ACK:
            conn.sendall(frame(SETTINGS, ACK, 0))
        if head[3] == HEADERS:
            yield int.from_bytes(head[5:9], 'big')


def asks_in_vain(port, until):
    """A client that asks the rude cluster again and again, and bears what comes."""
    peer = Peer(port)
    for stream in range(1, 1 << 30, 2):
        peer.send(get(stream, b'/other'))
        peer.answer(stream)
        yield 1
        time.sleep(0.01)


def before_a_rude_cluster(args, handle, **keys):
    cluster = Rude(handle)
    try:
        beside_a_probe(args, asks_in_vain, attackers=4, other=cluster.port, **keys)
        print(f'    {cluster.conns} connections to the rude cluster', flush=True)
        assert cluster.conns < 20 * (args.seconds + 2), 'it is dialled too often'
    finally:
        cluster.close()


@scenario
def cluster_floods(args):
    """It sends PING and SETTINGS and reads nothing."""
    def handle(conn):
        conn.sendall(frame(SETTINGS, 0, 0))
        while True:
            conn.sendall(frame(PING, 0, 0, b'01234567') * 200 + frame(SETTINGS, 0, 0) * 200)
    before_a_rude_cluster(args, handle)


@scenario
def cluster_says_no_http(args):
    def handle(conn):
        conn.sendall(b'HTTP/1.1 400 Bad Request\r\n\r\n' * 100)
    before_a_rude_cluster(args, handle)


@scenario
def cluster_goes_at_once(args):
    """GOAWAY before the first request."""
    def handle(conn):
        conn.sendall(frame(SETTINGS, 0, 0) + frame(GOAWAY, 0, 0, bytes(8)))
        exactly(conn, 1 << 20)
    before_a_rude_cluster(args, handle)


@scenario
def cluster_ends_at_each_request(args):
    def handle(conn):
        for stream in requests_of(conn):
            return
    before_a_rude_cluster(args, handle)


@scenario
def cluster_resets_each_request(args):
    def handle(conn):
        for stream in requests_of(conn):
            conn.sendall(reset(stream, 2))
    before_a_rude_cluster(args, handle)


@scenario
def cluster_heads_without_end(args):
    def handle(conn):
        for stream in requests_of(conn):
            conn.sendall(frame(HEADERS, 0, stream, b'\x88'))
            while True:
                conn.sendall(frame(CONTINUATION, 0, stream, b'\0\x01x\x04long' * 100))
    before_a_rude_cluster(args, handle)


@scenario
def cluster_passes_the_window(args):
    def handle(conn):
        for stream in requests_of(conn):
            conn.sendall(frame(HEADERS, END_HEADERS, stream, b'\x88'))
            for _ in range(100):
                conn.sendall(frame(DATA, 0, stream, bytes(16_384)))
    before_a_rude_cluster(args, handle)


@scenario
def cluster_never_answers(args):
    def handle(conn):
        for stream in requests_of(conn):
            pass
    before_a_rude_cluster(args, handle, timeouts='route = 500')


@scenario
def cluster_pushes(args):
    def handle(conn):
        for stream in requests_of(conn):
            conn.sendall(frame(PUSH_PROMISE, END_HEADERS, stream, (2).to_bytes(4, 'big') + block(b'/pushed')))
    before_a_rude_cluster(args, handle)


def main():
    parser = argparse.ArgumentParser(description=__doc__.splitlines()[0])
    parser.add_argument('h2proxy')
    parser.add_argument('--replay', metavar='H2REPLAY')
    parser.add_argument('--seconds', type=int, default=20)
    parser.add_argument('--holes', action='store_true')
    parser.add_argument('names', nargs='*', metavar='NAME')
    args = parser.parse_intermixed_args()
    if not args.holes:
        os.environ['MALLOC_MMAP_THRESHOLD_'] = '32768'
    work = tempfile.mkdtemp(prefix='h2proxy-')
    args.few = os.path.join(work, 'few')
    with open(args.few, 'w') as f:
        f.write(f'#!/bin/sh\nulimit -n 64\nexec "{os.path.realpath(args.h2proxy)}" "$@"\n')
    os.chmod(args.few, 0o755)
    bad = 0
    for name, run in SCENARIOS.items():
        if args.names and name not in args.names:
            continue
        start = time.time()
        print(f'{name}:', flush=True)
        try:
            run(args)
            said = 'ok'
        except Exception as error:
            said, bad = f'FAILED: {type(error).__name__}: {error}', bad + 1
        print(f'    {said} ({time.time() - start:.1f} s)', flush=True)
    return 1 if bad else 0


if __name__ == '__main__':
    sys.exit(main())
