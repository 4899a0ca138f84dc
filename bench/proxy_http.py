#!/usr/bin/env python3
"""Real peers of HTTP/2 through a running `h2proxy CONFIG`: curl, nghttp and h2load as clients, nghttpd as the cluster.

    bench/proxy_http.py H2PROXY [--replay H2REPLAY] [NAME..]

Debian's packages curl, nghttp2-client and nghttp2-server. With H2REPLAY the journals of each scenario are replayed as well. Ends
with 1 where a scenario fails.
"""
import argparse, contextlib, hashlib, os, random, re, resource, shutil, signal, socket, subprocess, sys, tempfile, threading, time

HOST = '127.0.0.1'


def free_port():
    with socket.socket() as s:
        s.bind((HOST, 0))
        return s.getsockname()[1]


class Cluster:
    """nghttpd before a folder of files; what is posted is echoed."""

    def __init__(self, *words, port=None):
        self.port = port or free_port()
        self.dir = tempfile.mkdtemp(prefix='cluster-')
        self.files = {'empty': b'', 'one': b'x', 'middle': random.Random(1).randbytes(100_000), 'big': random.Random(2).randbytes(16 << 20)}
        for name, data in self.files.items():
            with open(os.path.join(self.dir, name), 'wb') as f:
                f.write(data)
        self.words = ['nghttpd', '--no-tls', '-a', HOST, '-d', self.dir, *words, str(self.port)]
        self.start()

    def start(self):
        self.process = subprocess.Popen(self.words, stdout=subprocess.DEVNULL, stderr=subprocess.DEVNULL)
        for _ in range(100):
            with contextlib.suppress(OSError), socket.create_connection((HOST, self.port), timeout=1):
                return
            time.sleep(0.05)
        raise RuntimeError('nghttpd does not listen')

    def stop(self):
        self.process.kill()
        self.process.wait()

    def close(self):
        self.stop()
        shutil.rmtree(self.dir)


class Proxy:
    """A running proxy before one cluster, and one more at another port for the paths below `/other` if it is given. Its journals are
    files of its own, or begin with the words given, or there are none. `before` is called in its process before the program begins."""

    def __init__(self, args, port, other=None, limits='', timeouts='', journal=True, turns=None, before=None, **keys):
        self.args, self.dir = args, tempfile.mkdtemp(prefix='h2proxy-')
        self.journal = os.path.join(self.dir, 'J') if journal is True and args.replay else None
        keys = {'connections': 2, **keys}
        lines = ['[limits]', limits, '[timeouts]', timeouts, '[proxy]', *(f'{k} = {v}' for k, v in keys.items())]
        if self.journal or isinstance(journal, str):
            lines.append(f'journal = "{self.journal or journal}"')
        for name, prefix, at in [('other', '/other', other), ('web', '/', port)]:
            if at:
                lines += ['[[clusters]]', f'name = "{name}"', f'address = "{HOST}:{at}"', '[[routes]]', f'prefix = "{prefix}"', f'cluster = "{name}"']
        self.config = os.path.join(self.dir, 'c.toml')
        with open(self.config, 'w') as f:
            f.write('\n'.join(lines) + '\n')
        self.workers = keys.get('workers', 2)
        words = [args.h2proxy, self.config] + ([str(turns)] if turns else [])
        self.process = subprocess.Popen(words, stdout=subprocess.PIPE, stderr=subprocess.PIPE, text=True, preexec_fn=before)
        line = self.process.stdout.readline()
        assert line.startswith('listening '), (line, self.process.poll(), self.process.stderr.read())
        self.port = int(line.rsplit(':', 1)[1])
        self.url = f'http://{HOST}:{self.port}'
        time.sleep(0.3)

    def files(self):
        return len(os.listdir(f'/proc/{self.process.pid}/fd'))

    def cpu(self):
        total = 0
        for task in os.listdir(f'/proc/{self.process.pid}/task'):
            with open(f'/proc/{self.process.pid}/task/{task}/schedstat') as f:
                total += int(f.read().split()[0])
        return total / 1e9

    @staticmethod
    def only_the_owner_reads(journal):
        """A journal holds all that anybody sent, credentials included."""
        mode = os.stat(journal).st_mode & 0o777
        assert mode == 0o600, f'{journal} has the mode {mode:o}'

    def end(self):
        alive = self.process.poll() is None
        self.process.kill()
        self.process.wait()
        self.said = self.process.stderr.read()
        assert alive, f'it had ended: {self.process.returncode} {self.said[-300:]}'
        if self.journal:
            for k in range(1, self.workers + 1):
                self.only_the_owner_reads(f'{self.journal}.{k}')
                with open(f'{self.journal}.{k}', 'rb') as f:
                    text = f.read()
                if len(text) > 67_000_000:
                    continue
                run = subprocess.run([self.args.replay, 'wire', self.config], input=text, capture_output=True)
                assert run.returncode == 0, ('replay', k, run.returncode, run.stderr[-200:], run.stdout[-200:])
                self.tape = run.stdout.decode()
        shutil.rmtree(self.dir, ignore_errors=True)


def curl(url, *words, timeout=60, data=None):
    """The status and the body of the answer."""
    with tempfile.NamedTemporaryFile() as body:
        run = subprocess.run(['curl', '-sS', '--http2-prior-knowledge', '-o', body.name, '-w', '%{http_code} %{http_version}', '--max-time', str(timeout), *words, url], input=data, capture_output=True)
        with open(body.name, 'rb') as f:
            return run.returncode, run.stdout.decode(), f.read(), run.stderr.decode()


SCENARIOS = {}


def scenario(f):
    SCENARIOS[f.__name__] = f
    return f


@contextlib.contextmanager
def running(args, *words, **keys):
    cluster = Cluster(*words)
    try:
        proxy = Proxy(args, cluster.port, **keys)
        try:
            yield cluster, proxy
        finally:
            if sys.exc_info()[0]:
                proxy.journal = None
                with contextlib.suppress(AssertionError):
                    proxy.end()
                sys.stderr.write(proxy.said[-400:])
        proxy.end()
    finally:
        cluster.close()


@scenario
def get(args):
    with running(args) as (cluster, proxy):
        for name, data in cluster.files.items():
            code, said, body, err = curl(f'{proxy.url}/{name}')
            assert (code, said) == (0, '200 2') and body == data, (name, code, said, len(body), err)
        code, said, body, err = curl(f'{proxy.url}/none')
        assert (code, said) == (0, '404 2'), (code, said, err)


@scenario
def head(args):
    with running(args) as (cluster, proxy):
        code, said, body, err = curl(f'{proxy.url}/middle', '-I')
        assert (code, said) == (0, '200 2') and b'content-length: 100000' in body, (code, said, body, err)


@scenario
def post(args):
    with running(args, '--echo-upload') as (cluster, proxy):
        for n in (0, 1, 100_000, 8 << 20):
            data = random.Random(n).randbytes(n)
            code, said, body, err = curl(f'{proxy.url}/up', '-X', 'POST', '--data-binary', '@-', data=data)
            assert (code, said) == (0, '200 2') and body == data, (n, code, said, len(body), err)


@scenario
def large_bodies(args):
    """64 MiB up, and down again."""
    with running(args, '--echo-upload', journal=False) as (cluster, proxy):
        data = random.Random(3).randbytes(64 << 20)
        code, said, body, err = curl(f'{proxy.url}/up', '-X', 'POST', '--data-binary', '@-', data=data)
        assert (code, said) == (0, '200 2') and body == data, (code, said, len(body), err)


class Answers:
    """A server that answers every request with a status and no body: just enough of HTTP/2 for that."""

    def __init__(self, status_field):
        self.field, self.open = status_field, True
        self.listener = socket.create_server((HOST, 0))
        self.port = self.listener.getsockname()[1]
        threading.Thread(target=self.run, daemon=True).start()

    def run(self):
        while self.open:
            with contextlib.suppress(OSError):
                conn, _ = self.listener.accept()
                threading.Thread(target=self.serve, args=(conn,), daemon=True).start()

    def serve(self, conn):
        def exactly(n):
            data = b''
            while len(data) < n:
                more = conn.recv(n - len(data))
                if not more:
                    raise OSError('ended')
                data += more
            return data

        with contextlib.suppress(OSError), conn:
            exactly(24)
            conn.sendall(b'\0\0\0\4\0\0\0\0\0')
            while True:
                head = exactly(9)
                kind, flags, stream = head[3], head[4], head[5:9]
                exactly(int.from_bytes(head[:3], 'big'))
                if kind == 4 and not flags & 1:
                    conn.sendall(b'\0\0\0\4\1\0\0\0\0')
                if kind == 1:
                    conn.sendall(len(self.field).to_bytes(3, 'big') + b'\1\5' + stream + self.field)

    def close(self):
        self.open = False
        self.listener.close()


@scenario
def no_content(args):
    cluster = Answers(b'\x89')
    proxy = Proxy(args, cluster.port)
    code, said, body, err = curl(f'{proxy.url}/none')
    proxy.end()
    cluster.close()
    assert (code, said, body) == (0, '204 2', b''), (code, said, body, err)


@scenario
def large_headers(args):
    with running(args) as (cluster, proxy):
        words = [w for i in range(20) for w in ('-H', f'x-{i}: ' + 'v' * 1500)]
        code, said, body, err = curl(f'{proxy.url}/one', *words)
        assert (code, said, body) == (0, '200 2', b'x'), (code, said, body, err)
        words = [w for i in range(40) for w in ('-H', f'x-{i}: ' + 'v' * 1500)]
        code, said, body, err = curl(f'{proxy.url}/one', *words)
        assert said != '200 2', 'a field list above the limit went through'


@scenario
def trailers(args):
    with running(args, '--trailer', 'x-end: yes') as (cluster, proxy):
        run = subprocess.run(['nghttp', '-v', '--trailer', 'x-mine: also', '-d', os.path.join(cluster.dir, 'one'), f'{proxy.url}/middle'], capture_output=True, timeout=30)
        assert b'x-end: yes' in run.stdout, run.stdout[-400:]


def h2load(proxy, path, requests, clients, streams, *words):
    run = subprocess.run(['h2load', '-n', str(requests), '-c', str(clients), '-m', str(streams), *words, f'{proxy.url}{path}'], capture_output=True, text=True, timeout=300)
    found = re.search(r'(\d+) succeeded, (\d+) failed, (\d+) errored, (\d+) timeout', run.stdout)
    codes = re.search(r'status codes: (\d+) 2xx, (\d+) 3xx, (\d+) 4xx, (\d+) 5xx', run.stdout)
    return tuple(map(int, found.groups())), tuple(map(int, codes.groups())), run.stdout


@scenario
def many_streams(args):
    """Ten connections with a hundred streams each, and warm connections enough for them."""
    with running(args, connections=12, journal=False) as (cluster, proxy):
        before = proxy.cpu()
        found, codes, said = h2load(proxy, '/one', 20_000, 10, 100)
        assert found[0] == 20_000 and codes == (20_000, 0, 0, 0), said[-600:]
        print(f'    {(proxy.cpu() - before) / 20_000 * 1e6:.1f} us of processor time a request', flush=True)


@scenario
def many_small(args):
    with running(args, connections=2) as (cluster, proxy):
        found, codes, said = h2load(proxy, '/one', 2_000, 16, 4)
        assert found[0] == 2_000 and codes == (2_000, 0, 0, 0), said[-600:]


@scenario
def two_workers(args):
    with running(args, connections=2, workers=2) as (cluster, proxy):
        found, codes, said = h2load(proxy, '/middle', 1_000, 8, 4)
        assert found[0] == 1_000 and codes == (1_000, 0, 0, 0), said[-600:]


@scenario
def too_many_clients(args):
    with running(args, max_connections=2) as (cluster, proxy):
        clients = [socket.create_connection((HOST, proxy.port), timeout=5) for _ in range(5)]
        live = [client for client in clients if client.recv(1) != b'']
        assert len(live) == 2, f'{len(live)} of {len(clients)} clients are live'
        for client in clients:
            client.close()


def is_live(client):
    """Whether the proxy has taken a client, which it tells by its SETTINGS, and hasn't closed it."""
    return client.recv(1) != b''


@scenario
def accept_rate(args):
    """One client may come in each tenth of a second: of twenty at once the others are closed, and of those that come more slowly next to
    none is."""
    with running(args, accept_rate=1, accept_burst=1) as (cluster, proxy):
        clients = [socket.create_connection((HOST, proxy.port), timeout=5) for _ in range(20)]
        live = sum(map(is_live, clients))
        assert 1 <= live <= 4, f'{live} of 20 are live'
        live = 0
        for _ in range(20):
            time.sleep(0.15)
            clients.append(socket.create_connection((HOST, proxy.port), timeout=5))
            live += is_live(clients[-1])
        assert live >= 18, f'{live} of 20 that came slowly are live'
        for client in clients:
            client.close()


@scenario
def stop_accepting(args):
    """A client that comes while `stop_accepting` is full waits, and is served once another has gone."""
    overload = '[overload]\nresources = ["connections"]\n[[overload.triggers]]\naction = "stop_accepting"\nresource = "connections"\nvalue = 500000'
    with running(args, max_connections=4, timeouts=overload) as (cluster, proxy):
        clients = [socket.create_connection((HOST, proxy.port), timeout=5) for _ in range(2)]
        assert all(map(is_live, clients))
        time.sleep(0.6)
        third = socket.create_connection((HOST, proxy.port), timeout=0.7)
        with contextlib.suppress(TimeoutError):
            is_live(third)
            raise AssertionError('a third was accepted, or closed')
        clients[0].close()
        third.settimeout(2)
        assert is_live(third), 'a third was closed'
        third.close()
        clients[1].close()


class Drain:
    """A pipe that is read to nowhere, unless it is stopped up."""

    def __init__(self, path):
        os.mkfifo(path)
        self.file = os.open(path, os.O_RDONLY | os.O_NONBLOCK)
        self.flows, self.lives = threading.Event(), True
        self.flows.set()
        self.thread = threading.Thread(target=self.run)
        self.thread.start()

    def run(self):
        while self.lives:
            self.flows.wait()
            with contextlib.suppress(BlockingIOError):
                os.read(self.file, 1 << 16)
            time.sleep(0.02)

    def close(self):
        self.lives = False
        self.flows.set()
        self.thread.join()
        os.close(self.file)


@scenario
def a_journal_waits(args):
    """Clients of a worker that waits for its journal are served by the other one."""
    with tempfile.TemporaryDirectory(prefix='journals-') as dir, contextlib.closing(Drain(f'{dir}/J.1')) as drain:
        with running(args, '--echo-upload', journal=f'{dir}/J', workers=2) as (cluster, proxy):
            drain.flows.clear()
            words = ['curl', '-sS', '--http2-prior-knowledge', '-o', '/dev/null', '--data-binary', f'@{cluster.dir}/middle']
            posts = [subprocess.Popen([*words, f'{proxy.url}/up']) for _ in range(2)]
            time.sleep(3)
            for _ in range(6):
                code, said, body, err = curl(f'{proxy.url}/one', timeout=2)
                assert (code, said, body) == (0, '200 2', b'x'), (code, said, err)
            drain.flows.set()
            ends = [post.wait(30) for post in posts]
            assert ends == [0, 0], ends


@scenario
def a_burst_waits(args):
    """Of the clients that come while a worker waits for its journal at most 64 are accepted for it, and take a file each. The others wait
    in the system's queue. All are served once the worker goes on."""
    with tempfile.TemporaryDirectory(prefix='journals-') as dir, contextlib.closing(Drain(f'{dir}/J.1')) as drain:
        with running(args, '--echo-upload', journal=f'{dir}/J', workers=1) as (cluster, proxy):
            drain.flows.clear()
            post = subprocess.Popen(['curl', '-sS', '--http2-prior-knowledge', '-o', '/dev/null', '--data-binary', f'@{cluster.dir}/middle', f'{proxy.url}/up'])
            time.sleep(0.3)
            before = proxy.files()
            clients = [socket.create_connection((HOST, proxy.port), timeout=10) for _ in range(400)]
            time.sleep(0.3)
            more = proxy.files() - before
            assert more <= 64, f'{more} files more'
            drain.flows.set()
            assert post.wait(30) == 0
            live = [client for client in clients if client.recv(1) != b'']
            assert len(live) == len(clients), f'{len(live)} of {len(clients)} clients are live'
            for client in clients:
                client.close()


def files_of_64_kib():
    signal.signal(signal.SIGXFSZ, signal.SIG_IGN)
    resource.setrlimit(resource.RLIMIT_FSIZE, (1 << 16, 1 << 16))


@scenario
def a_worker_fails(args):
    """Where the journal of one of two workers can't be written any more both end, and the program with them: it says why, its status is
    6, and no client is left waiting."""
    with tempfile.TemporaryDirectory(prefix='journals-') as dir, contextlib.closing(Cluster('--echo-upload')) as cluster:
        proxy = Proxy(args, cluster.port, journal=f'{dir}/J', workers=2, before=files_of_64_kib)
        words = ['curl', '-sS', '--http2-prior-knowledge', '-o', '/dev/null', '--data-binary', f'@{cluster.dir}/middle']
        post = subprocess.Popen([*words, f'{proxy.url}/up'], stderr=subprocess.DEVNULL)
        status = proxy.process.wait(5)
        said = proxy.process.stderr.read()
        shutil.rmtree(proxy.dir)
        assert status == 6, (status, said)
        assert re.search(r"the journal of worker \d can't be written: ", said), said
        assert "ended, since its journal can't be written" in said and 'ended, since it was told to stop' in said, said
        assert post.wait(5) != 0


@scenario
def client_goes_away(args):
    with running(args) as (cluster, proxy):
        for _ in range(5):
            curl(f'{proxy.url}/big', '--limit-rate', '1M', timeout=0.5)
        code, said, body, err = curl(f'{proxy.url}/middle')
        assert (code, said) == (0, '200 2') and body == cluster.files['middle'], (code, said, err)


@scenario
def cluster_goes_and_comes(args):
    with running(args) as (cluster, proxy):
        code, said, body, err = curl(f'{proxy.url}/one')
        assert (code, said) == (0, '200 2'), (code, said, err)
        cluster.stop()
        time.sleep(0.3)
        code, said, body, err = curl(f'{proxy.url}/one', timeout=5)
        assert said != '200 2', (code, said)
        calm = proxy.cpu()
        time.sleep(2)
        assert proxy.cpu() - calm < 0.06, f'{proxy.cpu() - calm:.3f} s of processor time in two seconds without a cluster'
        cluster.start()
        for _ in range(40):
            code, said, body, err = curl(f'{proxy.url}/one', timeout=5)
            if said == '200 2':
                break
            time.sleep(0.2)
        assert (code, said) == (0, '200 2'), (code, said, err)
    gone, back = proxy.said.count("can't be reached: "), proxy.said.count('is reached again')
    assert gone == 2 and 1 <= back <= 2, proxy.said


@scenario
def idle(args):
    with running(args) as (cluster, proxy):
        clients = [socket.create_connection((HOST, proxy.port)) for _ in range(50)]
        time.sleep(1)
        calm = proxy.cpu()
        time.sleep(3)
        spent = proxy.cpu() - calm
        assert spent < 0.03, f'{spent:.3f} s of processor time in three seconds of rest'
        for client in clients:
            client.close()


@scenario
def turns_end(args):
    cluster = Cluster()
    proxy = Proxy(args, cluster.port, turns=5)
    assert proxy.process.wait(10) == 0
    cluster.close()


def main():
    parser = argparse.ArgumentParser(description=__doc__.splitlines()[0])
    parser.add_argument('h2proxy')
    parser.add_argument('--replay', metavar='H2REPLAY')
    parser.add_argument('names', nargs='*', metavar='NAME')
    args = parser.parse_intermixed_args()
    bad = 0
    for name, run in SCENARIOS.items():
        if args.names and name not in args.names:
            continue
        start = time.time()
        try:
            run(args)
            said = 'ok'
        except Exception as error:
            said, bad = f'FAILED: {type(error).__name__}: {error}', bad + 1
        print(f'{name}: {said} ({time.time() - start:.1f} s)', flush=True)
    return 1 if bad else 0


if __name__ == '__main__':
    sys.exit(main())
