#!/usr/bin/env python3
"""Called by bench/proxy.sh: the same load through each proxy in turn, and the processor time that each spends, by /proc.

    proxy_cost.py H2PROXY WORK ROUNDS [BASE_PORT]
"""
import os, shutil, statistics, subprocess, sys, time

HOST = '127.0.0.1'
PINGS, MIB, TURNS = 60_000, 1_024, 4_000


def write(path, text):
    with open(path, 'w') as f:
        f.write(text)
    return path


def spent(processes):
    """Nanoseconds of processor time of the processes and what they started."""
    total = 0
    for process in processes:
        below = subprocess.run(['pgrep', '-P', str(process.pid)], capture_output=True, text=True).stdout.split()
        for pid in [str(process.pid), *below]:
            for task in os.listdir(f'/proc/{pid}/task') if os.path.exists(f'/proc/{pid}/task') else []:
                with open(f'/proc/{pid}/task/{task}/schedstat') as f:
                    total += int(f.read().split()[0])
    return total


def h2proxy(program, work, port, server):
    config = write(f'{work}/h2proxy-{port}.toml', f'[proxy]\nlisten = "{HOST}:{port}"\nconnections = 8\n[[clusters]]\nname = "backend"\naddress = "{HOST}:{server}"\n')
    return [program, 'relay', config]


def haproxy(work, port, server):
    config = write(f'{work}/haproxy-{port}.cfg', f'global\n  nbthread 1\ndefaults\n  mode tcp\n  timeout connect 5s\n  timeout client 60s\n  timeout server 60s\nlisten l\n  bind {HOST}:{port}\n  server s {HOST}:{server}\n')
    return ['haproxy', '-f', config]


def socat(port, server):
    return ['socat', f'TCP-LISTEN:{port},bind={HOST},reuseaddr,fork,backlog=1024,nodelay', f'TCP:{HOST}:{server},nodelay']


def main():
    program, work, rounds = sys.argv[1], sys.argv[2], int(sys.argv[3])
    base = int(sys.argv[4]) if len(sys.argv) > 4 else 23_000
    load, servers = f'{work}/load', {'echo': base, 'source': base + 1}
    started = [subprocess.Popen([load, name, str(port)]) for name, port in servers.items()]
    proxies, port = {}, base + 10
    for kind in ['h2proxy', 'haproxy', 'socat']:
        if kind != 'h2proxy' and not shutil.which(kind):
            continue
        for name, server in servers.items():
            words = {'h2proxy': lambda: h2proxy(program, work, port, server), 'haproxy': lambda: haproxy(work, port, server), 'socat': lambda: socat(port, server)}[kind]()
            process = subprocess.Popen(words, stdout=subprocess.DEVNULL, stderr=subprocess.DEVNULL)
            started.append(process)
            proxies[kind, name] = process, port
            port += 1
    time.sleep(1)
    loads = {
        'us a pair of 100 octets there and back, 50 connections': ('echo', ['ping', 'PORT', '50', str(PINGS), '100'], PINGS * 1e3),
        'us a pair of 16,384 octets there and back, 1 connection': ('echo', ['ping', 'PORT', '1', str(PINGS // 4), '16384'], PINGS // 4 * 1e3),
        'ms a MiB down, 4 connections': ('source', ['pull', 'PORT', '4', str(MIB)], MIB * 1e6),
        'us a connection with one octet there and back': ('echo', ['turn', 'PORT', str(TURNS)], TURNS * 1e3),
    }
    found = {}
    try:
        for _ in range(rounds):
            for what, (name, words, unit) in loads.items():
                for kind in ['h2proxy', 'haproxy', 'socat']:
                    if (kind, name) not in proxies:
                        continue
                    process, port = proxies[kind, name]
                    before, start = spent([process]), time.time()
                    # A process of socat's is gone with its connection, and its time with it: socat shows its wall time alone.
                    subprocess.run([load, *(str(port) if w == 'PORT' else w for w in words)], check=True)
                    found.setdefault((what, kind), []).append(((spent([process]) - before) / unit, time.time() - start))
    finally:
        for process in started:
            process.kill()
    for what in loads:
        print(what)
        for kind in ['h2proxy', 'haproxy', 'socat']:
            runs = found.get((what, kind), [])
            if runs:
                costs, walls = [r[0] for r in runs], [r[1] for r in runs]
                cost = 'not told' if kind == 'socat' else f'{statistics.median(costs):.3f} ({min(costs):.3f} to {max(costs):.3f})'
                print(f'  {kind:8} {cost}, wall {statistics.median(walls):.2f} s')
        ours, theirs = found.get((what, 'h2proxy')), found.get((what, 'haproxy'))
        if ours and theirs:
            print(f'  ratio to haproxy: {statistics.median(r[0] for r in ours) / statistics.median(r[0] for r in theirs):.2f}')


if __name__ == '__main__':
    main()
