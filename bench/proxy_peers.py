#!/usr/bin/env python3
"""Plays clients and servers at a running `h2proxy relay`, over loopback: one scenario after another, each told in a line.

    bench/proxy_peers.py H2PROXY [--replay H2REPLAY] [NAME..]

H2PROXY is the program. With H2REPLAY the journal of each scenario is replayed as well. Ends with 1 where a scenario fails.
"""
import argparse, contextlib, hashlib, os, random, resource, select, socket, struct, subprocess, sys, tempfile, threading, time

HOST = '127.0.0.1'


class Server:
    """Listens, and runs `handle(conn)` in a thread for each connection."""

    def __init__(self, handle, port=0):
        self.listener = socket.socket()
        self.listener.setsockopt(socket.SOL_SOCKET, socket.SO_REUSEADDR, 1)
        self.listener.bind((HOST, port))
        self.listener.listen(1024)
        self.port = self.listener.getsockname()[1]
        self.handle, self.open, self.came, self.ended = handle, True, 0, 0
        threading.Thread(target=self.run, daemon=True).start()

    def run(self):
        while self.open:
            try:
                conn, _ = self.listener.accept()
            except OSError:
                return
            self.came += 1
            threading.Thread(target=self.one, args=(conn,), daemon=True).start()

    def one(self, conn):
        with contextlib.suppress(OSError), conn:
            self.handle(conn)
        self.ended += 1

    def close(self):
        self.open = False
        with contextlib.suppress(OSError):
            self.listener.shutdown(socket.SHUT_RDWR)
        self.listener.close()


def echo(conn):
    while data := conn.recv(65536):
        conn.sendall(data)


class Proxy:
    """A running proxy before one server."""

    def __init__(self, args, port, turns=None, files=None, journal=True, **keys):
        self.args, self.dir = args, tempfile.mkdtemp(prefix='h2proxy-')
        limits = {k: v for k, v in keys.items() if k == 'write_buffer'}
        proxy = {k: v for k, v in keys.items() if k != 'write_buffer'}
        self.journal = os.path.join(self.dir, 'J') if journal and args.replay else None
        lines = ['[limits]', *(f'{k} = {v}' for k, v in limits.items()), '[proxy]', *(f'{k} = {v}' for k, v in proxy.items())]
        if self.journal:
            lines.append(f'journal = "{self.journal}"')
        lines += ['[[clusters]]', 'name = "backend"', f'address = "{HOST}:{port}"']
        self.config = os.path.join(self.dir, 'c.toml')
        with open(self.config, 'w') as f:
            f.write('\n'.join(lines) + '\n')
        words = [args.h2proxy, 'relay', self.config] + ([str(turns)] if turns else [])
        limit = (lambda: resource.setrlimit(resource.RLIMIT_NOFILE, (files, files))) if files else None
        self.process = subprocess.Popen(words, stdout=subprocess.PIPE, stderr=subprocess.PIPE, text=True, preexec_fn=limit)
        line = self.process.stdout.readline()
        assert line.startswith('listening '), (line, self.process.stderr.read())
        self.port = int(line.rsplit(':', 1)[1])

    def connect(self, timeout=10):
        conn = socket.create_connection((HOST, self.port), timeout=timeout)
        conn.setsockopt(socket.IPPROTO_TCP, socket.TCP_NODELAY, 1)
        return conn

    def cpu(self):
        """Processor time so far in seconds."""
        with open(f'/proc/{self.process.pid}/schedstat') as f:
            return int(f.read().split()[0]) / 1e9

    def files(self):
        return len(os.listdir(f'/proc/{self.process.pid}/fd'))

    def calls(self, seconds):
        """How many system calls it makes in so many seconds, by name."""
        run = subprocess.run(['timeout', '-s', 'INT', str(seconds), 'strace', '-f', '-c', '-p', str(self.process.pid)], capture_output=True, text=True)
        found = {}
        for line in run.stderr.splitlines():
            words = line.split()
            if len(words) >= 5 and words[0].replace('.', '').isdigit():
                found[words[-1]] = int(words[3])
        return found

    @staticmethod
    def only_the_owner_reads(journal):
        """A journal holds all that anybody sent, credentials included."""
        mode = os.stat(journal).st_mode & 0o777
        assert mode == 0o600, f'{journal} has the mode {mode:o}'

    def end(self):
        self.process.kill()
        self.process.wait()
        self.said = self.process.stderr.read()
        if self.journal:
            self.only_the_owner_reads(self.journal + '.1')
            with open(self.journal + '.1', 'rb') as f:
                text = f.read()
            if len(text) > 67_000_000:
                return
            run = subprocess.run([self.args.replay, 'relay', self.config], input=text, capture_output=True)
            assert run.returncode == 0, ('replay', run.returncode, run.stderr[-200:], run.stdout[-200:])


def read_all(conn):
    parts = []
    with contextlib.suppress(ConnectionResetError):
        while data := conn.recv(65536):
            parts.append(data)
    return b''.join(parts)


def exactly(conn, n):
    parts = bytearray()
    while len(parts) < n:
        data = conn.recv(min(65536, n - len(parts)))
        if not data:
            break
        parts += data
    return bytes(parts)


def soon(what, seconds=5.0):
    end = time.time() + seconds
    while time.time() < end:
        if what():
            return True
        time.sleep(0.02)
    return False


def rest(proxy, seconds=20):
    """Waits until the proxy has had little to do for a second and a half, and answers its processor time so far."""
    last, quiet = proxy.cpu(), 0
    for _ in range(int(seconds / 0.5)):
        time.sleep(0.5)
        now = proxy.cpu()
        quiet = quiet + 1 if now - last < 0.002 else 0
        last = now
        if quiet == 3:
            break
    return last


SCENARIOS = {}


def scenario(f):
    SCENARIOS[f.__name__] = f
    return f


@scenario
def small_there_and_back(args):
    server = Server(echo)
    proxy = Proxy(args, server.port)
    with proxy.connect() as client:
        for n in range(200):
            client.sendall(b'%d;' % n)
            assert exactly(client, len(b'%d;' % n)) == b'%d;' % n
    assert soon(lambda: server.ended == 1), 'the server was not told of the end'
    proxy.end()
    server.close()


@scenario
def bulk_both_ways(args, mib=24):
    """Random octets both ways at once, compared by their digests."""
    there, back = random.Random(1).randbytes(mib << 20), random.Random(2).randbytes(mib << 20)
    seen = {}

    def send(conn):
        with contextlib.suppress(OSError):
            conn.sendall(back)

    def handle(conn):
        writer = threading.Thread(target=send, args=(conn,))
        writer.start()
        seen['there'] = exactly(conn, len(there))
        writer.join()

    server = Server(handle)
    proxy = Proxy(args, server.port, journal=False, write_buffer=65536)
    with proxy.connect(60) as client:
        writer = threading.Thread(target=client.sendall, args=(there,))
        writer.start()
        got = exactly(client, len(back))
        writer.join()
        assert hashlib.sha256(got).digest() == hashlib.sha256(back).digest(), 'the answer differs'
    assert soon(lambda: 'there' in seen, 30) and seen['there'] == there, 'the request differs'
    proxy.end()
    server.close()


@scenario
def odd_buffer(args):
    """A small write buffer whose ring wraps: nothing waits for a tenth of a second."""
    server = Server(echo)
    proxy = Proxy(args, server.port, write_buffer=20000)
    data = random.Random(3).randbytes(3 << 20)
    start = time.time()
    with proxy.connect() as client:
        writer = threading.Thread(target=client.sendall, args=(data,))
        writer.start()
        assert exactly(client, len(data)) == data
        writer.join()
    assert time.time() - start < 20, f'slow: {time.time() - start:.1f} s'
    proxy.end()
    server.close()


@scenario
def server_ends_first(args):
    """The server answers and ends: the client gets all of it, then the end."""
    answer = random.Random(4).randbytes(1 << 20)

    def handle(conn):
        conn.recv(100)
        conn.sendall(answer)

    server = Server(handle)
    proxy = Proxy(args, server.port)
    for _ in range(20):
        with proxy.connect() as client:
            client.sendall(b'GET')
            assert read_all(client) == answer
    proxy.end()
    server.close()


@scenario
def server_ends_while_the_client_sends(args):
    """The client goes on to send what nobody reads: it still gets the whole answer."""
    answer = random.Random(5).randbytes(300_000)

    def handle(conn):
        conn.recv(10)
        conn.sendall(answer)
        conn.shutdown(socket.SHUT_WR)
        time.sleep(0.3)

    server = Server(handle)
    proxy = Proxy(args, server.port)
    for _ in range(5):
        with proxy.connect() as client:
            client.sendall(b'0123456789' + b'x' * 50_000)
            time.sleep(0.1)
            assert read_all(client) == answer
    proxy.end()
    server.close()


@scenario
def client_ends_its_half(args):
    """What a client sent before it ended its half arrives whole; its answer is lost."""
    sent, seen = random.Random(6).randbytes(2 << 20), {}

    def handle(conn):
        seen['all'] = read_all(conn)

    server = Server(handle)
    proxy = Proxy(args, server.port)
    with proxy.connect() as client:
        client.sendall(sent)
        client.shutdown(socket.SHUT_WR)
        assert soon(lambda: 'all' in seen) and seen['all'] == sent
    proxy.end()
    server.close()


@scenario
def slow_reader(args):
    """A client that doesn't read: its server is held, others are served, and it costs no system call."""
    flood = b'z' * 65536

    def handle(conn):
        first = conn.recv(1)
        if first == b'f':
            while True:
                conn.sendall(flood)
        conn.sendall(first)
        echo(conn)

    server = Server(handle)
    proxy = Proxy(args, server.port, journal=False, write_buffer=100_000)
    slow = []
    for _ in range(10):
        client = proxy.connect()
        client.sendall(b'f')
        slow.append(client)
    calm = rest(proxy)
    time.sleep(1)
    spent = proxy.cpu() - calm
    assert spent < 0.02, f'{spent:.3f} s of processor time in a second of rest'
    quick = proxy.connect()
    for n in range(1000):
        quick.sendall(b'ping')
        assert exactly(quick, 4) == b'ping'
    found = proxy.calls(2) if args.strace else {}
    assert found.get('sendto', 0) + found.get('write', 0) < 10, found
    one = slow[0]
    assert set(exactly(one, 30_000_000)) == {ord('z')}, 'what was held differs'
    proxy.end()
    server.close()


@scenario
def reset_by_the_client(args):
    """A client that resets: the server is told, and nothing stays open."""
    server = Server(echo)
    proxy = Proxy(args, server.port)
    rest = proxy.files()
    for _ in range(30):
        client = proxy.connect()
        client.sendall(b'hello')
        exactly(client, 5)
        client.setsockopt(socket.SOL_SOCKET, socket.SO_LINGER, struct.pack('ii', 1, 0))
        client.close()
    assert soon(lambda: server.ended >= 30), server.ended
    assert soon(lambda: proxy.files() <= rest + 2, 8), (proxy.files(), rest)
    proxy.end()
    server.close()


@scenario
def reset_by_the_server(args):
    def handle(conn):
        conn.recv(5)
        conn.setsockopt(socket.SOL_SOCKET, socket.SO_LINGER, struct.pack('ii', 1, 0))

    server = Server(handle)
    proxy = Proxy(args, server.port)
    rest = proxy.files()
    for _ in range(30):
        with proxy.connect() as client:
            client.sendall(b'hello')
            assert read_all(client) == b''
    assert soon(lambda: proxy.files() <= rest + 2, 8), (proxy.files(), rest)
    proxy.end()
    server.close()


@scenario
def reset_of_one_that_is_held(args):
    """A client that doesn't read and then resets: its pair is gone."""
    def handle(conn):
        with contextlib.suppress(OSError):
            while True:
                conn.sendall(b'y' * 65536)

    server = Server(handle)
    proxy = Proxy(args, server.port, journal=False, write_buffer=50_000)
    rest = proxy.files()
    for _ in range(5):
        client = proxy.connect()
        time.sleep(0.3)
        client.setsockopt(socket.SOL_SOCKET, socket.SO_LINGER, struct.pack('ii', 1, 0))
        client.close()
    assert soon(lambda: proxy.files() <= rest + 2, 8), (proxy.files(), rest)
    proxy.end()
    server.close()


@scenario
def banner(args):
    """A server that speaks first, before a client is there."""
    def handle(conn):
        conn.sendall(b'220 hello\r\n')
        echo(conn)

    server = Server(handle)
    proxy = Proxy(args, server.port, connections=4)
    time.sleep(0.3)
    for _ in range(20):
        with proxy.connect() as client:
            assert exactly(client, 11) == b'220 hello\r\n'
            client.sendall(b'ok')
            assert exactly(client, 2) == b'ok'
    proxy.end()
    server.close()


@scenario
def many_clients(args, count=200):
    server = Server(echo)
    proxy = Proxy(args, server.port, connections=8)
    clients = [proxy.connect() for _ in range(count)]
    for n, client in enumerate(clients):
        client.sendall(b'%06d' % n)
    for n, client in enumerate(clients):
        assert exactly(client, 6) == b'%06d' % n
    for client in clients:
        client.close()
    assert soon(lambda: server.ended >= count), server.ended
    proxy.end()
    server.close()


@scenario
def more_than_max(args):
    """Clients above max_connections wait, and are served once others have gone."""
    server = Server(echo)
    proxy = Proxy(args, server.port, max_connections=3)
    clients = [proxy.connect() for _ in range(5)]
    for client in clients:
        client.sendall(b'x')
    served = [exactly(client, 1) for client in clients[:3]]
    assert served == [b'x'] * 3
    clients[3].settimeout(0.5)
    try:
        assert not clients[3].recv(1), 'a fourth was served'
        raise AssertionError('a fourth was refused')
    except socket.timeout:
        pass
    for client in clients[:3]:
        client.close()
    clients[3].settimeout(5)
    assert exactly(clients[3], 1) == b'x' and exactly(clients[4], 1) == b'x'
    proxy.end()
    server.close()


@scenario
def cluster_goes_and_comes(args):
    """Without a cluster clients are refused soon and little is tried; once it is back they are served again. Both is told, once."""
    server = Server(echo)
    port = server.port
    proxy = Proxy(args, port)
    with proxy.connect() as client:
        client.sendall(b'a')
        assert exactly(client, 1) == b'a'
    server.close()
    time.sleep(0.2)
    with contextlib.suppress(OSError), proxy.connect() as client:
        client.sendall(b'b')
        exactly(client, 1)
    calm = proxy.cpu()
    time.sleep(2)
    spent = proxy.cpu() - calm
    assert spent < 0.04, f'{spent:.3f} s of processor time in two seconds without a cluster'
    for _ in range(3):
        start = time.time()
        with contextlib.suppress(OSError), proxy.connect() as client:
            client.sendall(b'b')
            assert exactly(client, 1) == b''
        assert time.time() - start < 2, 'refused late'
    server = Server(echo, port)

    def served():
        with contextlib.suppress(OSError), proxy.connect() as client:
            client.sendall(b'c')
            return exactly(client, 1) == b'c'

    assert soon(served, 8), 'not served again'
    proxy.end()
    told = proxy.said.count("can't be reached: "), proxy.said.count('is reached again')
    assert told == (1, 1), proxy.said
    server.close()


@scenario
def cluster_closes_what_is_ready(args):
    """A server that ends idle connections soon: clients are still served, and the pauses keep the tries few."""
    def handle(conn):
        conn.settimeout(0.3)
        try:
            echo(conn)
        except socket.timeout:
            pass

    server = Server(handle)
    proxy = Proxy(args, server.port)
    time.sleep(3)
    assert server.came < 20, f'{server.came} connections in 3 s'

    def served():
        with contextlib.suppress(OSError), proxy.connect() as client:
            client.sendall(b'c')
            return exactly(client, 1) == b'c'

    assert soon(served, 8)
    proxy.end()
    server.close()


@scenario
def few_files(args):
    """Too few open files: it says so, goes on, and serves again once some are free."""
    server = Server(echo)
    proxy = Proxy(args, server.port, files=40)
    clients = [proxy.connect() for _ in range(40)]
    time.sleep(0.5)
    calm = proxy.cpu()
    time.sleep(1)
    spent = proxy.cpu() - calm
    assert spent < 0.05, f'{spent:.3f} s of processor time in a second without files'
    for client in clients:
        client.close()

    def served():
        with contextlib.suppress(OSError), proxy.connect(2) as client:
            client.sendall(b'c')
            return exactly(client, 1) == b'c'

    assert soon(served, 10)
    assert proxy.process.poll() is None
    proxy.end()
    assert 'open files are allowed' in proxy.said, proxy.said
    assert 'Too many open files' in proxy.said, proxy.said
    server.close()


@scenario
def idle(args):
    server = Server(echo)
    proxy = Proxy(args, server.port)
    clients = [proxy.connect() for _ in range(100)]
    time.sleep(1)
    calm = proxy.cpu()
    time.sleep(3)
    spent = proxy.cpu() - calm
    assert spent < 0.03, f'{spent:.3f} s of processor time in three seconds of rest'
    proxy.end()
    server.close()


@scenario
def turns_end(args):
    server = Server(echo)
    proxy = Proxy(args, server.port, turns=5)
    assert proxy.process.wait(5) == 0
    proxy.end()
    server.close()


def words(args, *given):
    run = subprocess.run([args.h2proxy, *given], capture_output=True, text=True, timeout=10)
    return run.returncode, run.stdout, run.stderr


@scenario
def words_and_faults(args):
    """The words, and what is refused."""
    d = tempfile.mkdtemp(prefix='h2proxy-')

    def config(text):
        path = os.path.join(d, 'c.toml')
        with open(path, 'w') as f:
            f.write(text)
        return path

    status, out, err = words(args, '--help')
    assert status == 0 and 'relay CONFIG' in out and not err
    status, out, err = words(args, '--version')
    assert (status, out, err) == (0, 'h2proxy 0.1.0\n', '')
    for given in ([], ['relay'], ['drill', '1'], ['relay', 'c', '0'], ['relay', 'c', '01'], ['relay', 'c', '4294967296'], ['relay', 'c', '1', '2']):
        status, out, err = words(args, *given)
        assert (status, out) == (2, '') and err.startswith('usage: h2proxy'), (given, status, out, err)
    status, out, err = words(args, 'relay', os.path.join(d, 'none.toml'))
    assert (status, out) == (5, '') and err == "h2proxy: the configuration can't be read: entity not found\n", (status, out, err)
    status, out, err = words(args, 'relay', config('[proxy]\nworkers = 0\n'))
    assert (status, out) == (3, 'refused config 4 proxy.workers\n') and 'out of its range' in err, (status, out, err)
    status, out, err = words(args, 'relay', config('[proxy]\nlisten = "localhost:80"\n'))
    assert (status, out) == (6, '') and 'no address' in err, (status, out, err)
    status, out, err = words(args, 'relay', config('[[clusters]]\nname = "backend"\naddress = "localhost:80"\n'), '1')
    assert status == 0 and out.startswith('listening 127.0.0.1:') and 'cluster backend' in err, (status, out, err)
    status, out, err = words(args, 'relay', config(f'[proxy]\njournal = "{d}/none/J"\n'), '1')
    assert status == 6 and 'journal' in err, (status, out, err)
    status, out, err = words(args, 'relay', config('#' * 1_048_577))
    assert (status, out) == (9, 'refused length config\n'), (status, out, err)


def main():
    parser = argparse.ArgumentParser(description=__doc__.splitlines()[0])
    parser.add_argument('h2proxy')
    parser.add_argument('--replay', metavar='H2REPLAY')
    parser.add_argument('--strace', action='store_true', help='count system calls where that tells something')
    parser.add_argument('names', nargs='*', metavar='NAME')
    args = parser.parse_intermixed_args()
    bad = 0
    for name, run in SCENARIOS.items():
        if args.names and name not in args.names:
            continue
        start = time.time()
        try:
            run(args)
            said = 'ok'
        except Exception as error:
            said, bad = f'FAILED: {type(error).__name__}: {error}', bad + 1
        print(f'{name}: {said} ({time.time() - start:.1f} s)', flush=True)
    return 1 if bad else 0


if __name__ == '__main__':
    sys.exit(main())
