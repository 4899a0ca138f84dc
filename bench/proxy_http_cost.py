#!/usr/bin/env python3
"""Processor time of `h2proxy CONFIG` beside nghttpx, by /proc, over the same load of h2load before nghttpd on loopback.

    bench/proxy_http_cost.py H2PROXY [ROUNDS] [--workers N]

Debian's packages nghttp2-client, nghttp2-server and nghttp2-proxy. Each round goes through both in turn; the figures are medians.
"""
import argparse, os, random, re, statistics, subprocess, tempfile, time

HOST = '127.0.0.1'


def spent(process):
    """Nanoseconds of processor time of a process and what it started."""
    below = subprocess.run(['pgrep', '-P', str(process.pid)], capture_output=True, text=True).stdout.split()
    total = 0
    for pid in [str(process.pid), *below]:
        for task in os.listdir(f'/proc/{pid}/task'):
            with open(f'/proc/{pid}/task/{task}/schedstat') as f:
                total += int(f.read().split()[0])
    return total


def main():
    parser = argparse.ArgumentParser(description=__doc__.splitlines()[0])
    parser.add_argument('h2proxy')
    parser.add_argument('rounds', nargs='?', type=int, default=5)
    parser.add_argument('--workers', type=int, default=1)
    parser.add_argument('--base', type=int, default=25_000)
    parser.add_argument('--requests', type=int, default=20_000)
    args = parser.parse_args()
    work, base = tempfile.mkdtemp(prefix='h2cost-'), args.base
    for name, size in {'one': 1, 'mib': 1 << 20}.items():
        with open(f'{work}/{name}', 'wb') as f:
            f.write(random.Random(size).randbytes(size))
    with open(f'{work}/c.toml', 'w') as f:
        f.write(f'[proxy]\nlisten = "{HOST}:{base + 1}"\nconnections = 8\nworkers = {args.workers}\n[[clusters]]\nname = "web"\naddress = "{HOST}:{base}"\n[[routes]]\nprefix = "/"\ncluster = "web"\n')
    quiet = dict(stdout=subprocess.DEVNULL, stderr=subprocess.DEVNULL)
    started = [subprocess.Popen(['nghttpd', '--no-tls', '-a', HOST, '-d', work, str(base)], **quiet)]
    time.sleep(1)
    proxies = {'h2proxy': (subprocess.Popen([args.h2proxy, f'{work}/c.toml'], **quiet), base + 1)}
    proxies['nghttpx'] = subprocess.Popen(['nghttpx', '--conf=/dev/null', '--single-process', f'-f{HOST},{base + 2};no-tls', f'-b{HOST},{base};;proto=h2', f'-n{args.workers}', '--accesslog-file=/dev/null', '--errorlog-file=/dev/null'], **quiet), base + 2
    started += [process for process, _ in proxies.values()]
    time.sleep(1.5)
    n = args.requests
    loads = {
        'us a small GET, 1 connection with 100 streams': (['-n', str(n), '-c', '1', '-m', '100'], 'one', n * 1e3),
        'us a small GET, 16 connections with 32 streams': (['-n', str(n), '-c', '16', '-m', '32'], 'one', n * 1e3),
        'us a small GET, 50 connections with 1 stream': (['-n', str(n), '-c', '50', '-m', '1'], 'one', n * 1e3),
        'ms a MiB down, 4 connections with 4 streams': (['-n', str(n // 50), '-c', '4', '-m', '4'], 'mib', n // 50 * 1e6),
        'ms a MiB up, 4 connections with 4 streams': (['-n', str(n // 50), '-c', '4', '-m', '4', '-d', f'{work}/mib'], 'one', n // 50 * 1e6),
    }
    found, failed = {}, []
    try:
        for _ in range(args.rounds):
            for what, (words, path, unit) in loads.items():
                for kind, (process, port) in proxies.items():
                    before, start = spent(process), time.time()
                    run = subprocess.run(['h2load', *words, f'http://{HOST}:{port}/{path}'], capture_output=True, text=True, timeout=600)
                    done = re.search(r'(\d+) succeeded', run.stdout)
                    if not done or int(done.group(1)) != int(words[1]):
                        failed.append((kind, what, done and done.group(1)))
                    found.setdefault((what, kind), []).append(((spent(process) - before) / unit, time.time() - start))
    finally:
        for process in started:
            process.kill()
    for what in loads:
        print(what)
        for kind in proxies:
            costs = [r[0] for r in found[what, kind]]
            print(f'  {kind:8} {statistics.median(costs):.3f} ({min(costs):.3f} to {max(costs):.3f}), wall {statistics.median(r[1] for r in found[what, kind]):.2f} s')
        print(f"  ratio: {statistics.median(r[0] for r in found[what, 'h2proxy']) / statistics.median(r[0] for r in found[what, 'nghttpx']):.2f}")
    if failed:
        print('not all succeeded:', failed)


if __name__ == '__main__':
    main()
