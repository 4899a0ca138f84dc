#!/usr/bin/env python3
"""Requests one after another on one connection, and clients that come, ask once and go, at a running `h2proxy CONFIG`: what memory
it takes after the first thousand and after all.

    bench/proxy_long.py H2PROXY [--requests N] [--clients N] [--most KIB]

One worker with four connections to its cluster, without a journal. Debian's packages nghttp2-server and nghttp2-client. Ends with 1
where the resident memory grows by more than so many KiB behind the first thousand, or a request isn't answered 200.
"""
import argparse, multiprocessing, sys, time

from h2_peer import *
from proxy_http import Cluster, Proxy, h2load
from proxy_memory import resident

BESIDE = 3


def ask(proxy, requests):
    """So many requests, each sent when the one before is answered."""
    found, codes, said = h2load(proxy, '/one', requests, 1, 1, '--connection-inactivity-timeout=60')
    assert codes[0] == requests, said[-600:]


def visit(port, clients):
    """So many clients, one after another, each with a connection of its own; answers how many got what they asked for."""
    good = 0
    for k in range(clients):
        peer = Visitor(port, k)
        peer.send(get(1, b'/one'))
        good += peer.answer(1) == (True, b'x')
        peer.close()
    return good


class Visitor(Peer):
    """A client from one of two hundred addresses, so that its system doesn't run out of ports."""

    def __init__(self, port, k):
        self.conn = socket.create_connection((HOST, port), timeout=10, source_address=(f'127.0.0.{2 + k % 200}', 0))
        self.send(PREFACE + frame(SETTINGS, 0, 0))


def come(proxy, clients):
    share = [clients // BESIDE + (k < clients % BESIDE) for k in range(BESIDE)]
    with multiprocessing.Pool(BESIDE) as pool:
        good = sum(pool.starmap(visit, [(proxy.port, n) for n in share]))
    assert good == clients, f'{good} of {clients} were answered'


def measure(args, what, act, n):
    """The resident memory after the first thousand of n and after all, in KiB, and the seconds that it took."""
    cluster = Cluster()
    proxy = Proxy(args, cluster.port, workers=1, connections=4)
    start = time.time()
    act(proxy, 1000)
    time.sleep(1)
    first = resident(proxy.process.pid) >> 10
    act(proxy, n - 1000)
    time.sleep(1)
    last = resident(proxy.process.pid) >> 10
    print(f'{n} {what}: {first} KiB after the first thousand, {last} KiB after all, {time.time() - start:.0f} s', flush=True)
    proxy.end()
    cluster.close()
    return last - first


def main():
    parser = argparse.ArgumentParser(description=__doc__.splitlines()[0])
    parser.add_argument('h2proxy')
    parser.add_argument('--requests', type=int, default=1_000_000)
    parser.add_argument('--clients', type=int, default=100_000)
    parser.add_argument('--most', type=int, default=256)
    args = parser.parse_args()
    args.replay = None
    grown = [measure(args, 'requests', ask, args.requests), measure(args, 'clients', come, args.clients)]
    return 0 if max(grown) <= args.most else 1


if __name__ == '__main__':
    sys.exit(main())
