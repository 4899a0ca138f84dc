#!/usr/bin/env python3
"""What a small GET costs `h2proxy CONFIG` beside clients that do nothing, beside clients that read nothing, and with two workers.

    bench/proxy_crowd.py H2PROXY [ROUNDS] [--idle N] [--sluggards N] [--requests N]

The program runs four times. With one worker each: without other clients, with N connections that sent a preface and SETTINGS and
nothing since, and with N clients that asked for a MiB and read nothing; and with two workers, without other clients. Each has a nghttpd
with two threads of its own behind it. The same load of h2load, 16 connections with 32 streams, goes through each in turn, in an order
that is drawn for each round; one load before the first round counts for nothing.

What counts is the processor time of the program's threads for one GET, by /proc, and of a round's figures their ratio to those without
other clients in the same round; printed are medians. Two workers could answer as many times the GETs of one as the time of one for a
GET is of that of the busier of the two, for a GET of all: so it doesn't count what else the machine does, and that one of the
two has more of the connections does. The GETs a second by the clock are printed too; they say something only where the processors
are free otherwise.

Debian's packages nghttp2-client and nghttp2-server. Since a client that takes nothing is lost after a minute, the rounds have to be
over by then; it ends with 1 where a client of a crowd is gone, or a figure is beyond its aim: 1.2 and 1.5 times, and 1.7 times the GETs.
"""
import argparse, os, random, re, resource, select, statistics, subprocess, sys, time

from h2_peer import *
from proxy_http import Cluster, Proxy
from proxy_memory import KEYS, MIB, Sluggard

LOAD = ['-c', '16', '-m', '32']


def are_there(clients):
    """How many of these the proxy hasn't left."""
    there = 0
    for client in clients:
        poll = select.poll()
        poll.register(client.conn, select.POLLRDHUP)
        there += not poll.poll(0)
    return there


def threads(proxy):
    """Nanoseconds of processor time of each thread."""
    spent = {}
    for task in os.listdir(f'/proc/{proxy.process.pid}/task'):
        with open(f'/proc/{proxy.process.pid}/task/{task}/schedstat') as f:
            spent[task] = int(f.read().split()[0])
    return spent


def load(proxy, requests):
    """Microseconds of processor time for a GET of all threads and of the busiest, and GETs a second."""
    before, start = threads(proxy), time.time()
    run = subprocess.run(['h2load', '-n', str(requests), *LOAD, f'{proxy.url}/one'], capture_output=True, text=True, timeout=120)
    wall = time.time() - start
    done = re.search(r'(\d+) succeeded', run.stdout)
    assert done and int(done.group(1)) == requests, run.stdout[-300:]
    spent = [(now - before.get(task, 0)) / requests / 1e3 for task, now in threads(proxy).items()]
    return sum(spent), max(spent), requests / wall


def main():
    parser = argparse.ArgumentParser(description=__doc__.splitlines()[0])
    parser.add_argument('h2proxy')
    parser.add_argument('rounds', nargs='?', type=int, default=9)
    parser.add_argument('--idle', type=int, default=10_000)
    parser.add_argument('--sluggards', type=int, default=200)
    parser.add_argument('--requests', type=int, default=5_000)
    args = parser.parse_args()
    args.replay = None
    most = resource.getrlimit(resource.RLIMIT_NOFILE)[1]
    if most < args.idle + 1_000:
        sys.exit(f'proxy_crowd: {most} files may be open at once, too few for {args.idle} clients')
    resource.setrlimit(resource.RLIMIT_NOFILE, (most, most))
    mib = random.Random(5).randbytes(MIB)
    keys = {**KEYS, 'connections': 8, 'max_connections': args.idle + 1_000}
    clusters, proxies, found = {}, {}, {}
    for kind in ['alone', 'idle', 'sluggards', 'two']:
        clusters[kind] = Cluster('-n', '2')
        with open(os.path.join(clusters[kind].dir, 'mib'), 'wb') as f:
            f.write(mib)
        proxies[kind] = Proxy(args, clusters[kind].port, **{**keys, 'workers': 2 if kind == 'two' else 1})
        found[kind] = []
    crowd = [Peer(proxies['idle'].port) for _ in range(args.idle)]
    for proxy in proxies.values():
        load(proxy, args.requests)
    sluggards = [Sluggard(proxies['sluggards'].port) for _ in range(args.sluggards)]
    end = time.time() + 50
    time.sleep(3)
    rounds = 0
    while rounds < args.rounds and time.time() < end:
        for kind in random.sample(list(proxies), len(proxies)):
            found[kind].append(load(proxies[kind], args.requests))
        rounds += 1
    there = are_there(crowd), are_there(sluggards)
    alone = found['alone']
    dearer = {kind: statistics.median(a[0] / b[0] for a, b in zip(found[kind], alone)) for kind in found}
    more = statistics.median(b[0] / a[1] for a, b in zip(found['two'], alone))
    for kind, loads in found.items():
        costs = [a[0] for a in loads]
        print(f'{kind:9} {statistics.median(costs):.1f} us a GET ({min(costs):.1f} to {max(costs):.1f}), {dearer[kind]:.2f} times alone; '
              f'{statistics.median(a[2] for a in loads):,.0f} GETs a second')
    print(f'two workers: the busier {statistics.median(a[1] for a in found["two"]):.1f} us of each GET of all, so {more:.2f} times the GETs of one; '
          f'by the clock {statistics.median(a[2] / b[2] for a, b in zip(found["two"], alone)):.2f} times')
    print(f'{rounds} rounds of {args.requests} GETs; {there[0]} of {args.idle} idle clients and {there[1]} of {args.sluggards} that read nothing are there still')
    for kind in proxies:
        proxies[kind].end()
        clusters[kind].close()
    all_there = there == (args.idle, args.sluggards)
    return 0 if all_there and dearer['idle'] <= 1.2 and dearer['sluggards'] <= 1.5 and more >= 1.7 else 1


if __name__ == '__main__':
    sys.exit(main())
