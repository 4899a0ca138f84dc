#!/usr/bin/env python3
"""Clients that ask for a MiB each and read nothing, at a running `h2proxy CONFIG`, beside a probe: what memory the proxy takes.

    bench/proxy_memory.py H2PROXY [--clients N] [--seconds N] [--most MIB]

There is one worker with four connections to its cluster, whose windows are 16 MiB; a write buffer is 65,536 octets, and there is no
route timeout. The clients' windows are a MiB, and their sockets take little. After so many seconds they read, and each has to get
its MiB whole. Debian's package nghttp2-server. Ends with 1 where the resident memory passes so many MiB, the probe waits for two
seconds or isn't answered 200, or a client gets something else.
"""
import argparse, os, random, resource, socket, sys, time

from h2_peer import *
from proxy_http import Cluster, Proxy

MIB = 1 << 20
KEYS = dict(workers=1, connections=4, limits='write_buffer = 65536\nconnection_window = 16777216', timeouts='route = 0')


class Sluggard(Peer):
    """A client that asks for a MiB, and doesn't read until it is told to."""

    def __init__(self, port):
        self.conn = socket.socket()
        self.conn.setsockopt(socket.SOL_SOCKET, socket.SO_RCVBUF, 4096)
        self.conn.settimeout(60)
        self.conn.connect((HOST, port))
        self.send(PREFACE + frame(SETTINGS, 0, 0, setting(INITIAL_WINDOW_SIZE, MIB)) + grant(0, MIB) + get(1, b'/mib'))


def resident(pid):
    with open(f'/proc/{pid}/statm') as f:
        return int(f.read().split()[1]) * resource.getpagesize()


def watch(proxy, seconds):
    """The greatest resident memory within so many seconds."""
    peak, end = 0, time.time() + seconds
    while time.time() < end:
        peak = max(peak, resident(proxy.process.pid))
        time.sleep(0.05)
    return peak


def main():
    parser = argparse.ArgumentParser(description=__doc__.splitlines()[0])
    parser.add_argument('h2proxy')
    parser.add_argument('--clients', type=int, default=200)
    parser.add_argument('--seconds', type=int, default=20)
    parser.add_argument('--most', type=int, default=60)
    args = parser.parse_args()
    args.replay = None
    cluster = Cluster()
    data = random.Random(5).randbytes(MIB)
    with open(os.path.join(cluster.dir, 'mib'), 'wb') as f:
        f.write(data)
    proxy = Proxy(args, cluster.port, **KEYS)
    probe = Probe(proxy.port, pause=0.1)
    probe.start()
    time.sleep(1)
    before = resident(proxy.process.pid)
    clients = [Sluggard(proxy.port) for _ in range(args.clients)]
    peak = stalled = watch(proxy, args.seconds)
    whole = sum(client.answer(1) == (True, data) for client in clients)
    peak = max(peak, watch(proxy, 1))
    probe.end()
    print(f'{before / MIB:.1f} MiB before, {stalled / MIB:.1f} MiB while they read nothing, {peak / MIB:.1f} MiB at most; {len(probe.took)} answers to the probe, the slowest after '
          f'{max(probe.took) * 1e3:.0f} ms, {len(probe.failed)} refused; {whole} of {args.clients} clients got their MiB whole')
    proxy.end()
    cluster.close()
    return 0 if peak <= args.most * MIB and not probe.failed and max(probe.took) < 2 and whole == args.clients else 1


if __name__ == '__main__':
    sys.exit(main())
