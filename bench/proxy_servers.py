#!/usr/bin/env python3
"""Servers of four kinds behind a running `h2proxy CONFIG`, each in turn: nghttpd, nginx, one in Go and one in Python.

    bench/proxy_servers.py H2PROXY [--replay H2REPLAY] [--go GO_SERVER] [--kind KIND] [NAME..]

Debian's packages curl, nghttp2-client, nghttp2-server and nginx-light. GO_SERVER is bench/go_server, built (golang-go and
golang-golang-x-net-dev, `GO111MODULE=off GOPATH=/usr/share/gocode go build` in its folder); nginx passes what is
posted on to it. The one in Python is hypercorn (python3-hypercorn). nginx ends a connection after 1,000 requests, its default;
hypercorn is told not to. A kind whose program isn't there is left out. With H2REPLAY the journals of each scenario below 64 MiB
are replayed as well. Ends with 1 where a scenario fails.
"""
import argparse, contextlib, hashlib, os, random, shutil, subprocess, sys, tempfile, time

from h2_peer import *
from proxy_http import Proxy, curl, free_port, h2load

FILES = {'empty': 0, 'one': 1, 'middle': 100_000, 'big': 64 << 20}

NGINX = '''
daemon off; pid {dir}/pid; error_log {dir}/errors; worker_processes 1;
events {{ worker_connections 512; }}
http {{
    access_log off; client_body_temp_path {dir}/tmp; proxy_temp_path {dir}/tmp2; client_max_body_size 0;
    large_client_header_buffers 8 64k; http2_max_concurrent_streams 128;
    proxy_request_buffering off; proxy_http_version 1.1;
    server {{
        listen 127.0.0.1:{port} http2; root {dir};
        add_trailer x-end always always;
        location = /none {{ return 204; }}
        location = /fields {{ proxy_buffer_size 64k; proxy_buffers 8 64k; proxy_busy_buffers_size 64k; proxy_pass http://127.0.0.1:{behind}; }}
        location ~ ^/(up|digest) {{ proxy_pass http://127.0.0.1:{behind}; }}
    }}
}}
'''

ASGI = '''
import hashlib

async def app(scope, receive, send):
    if scope['type'] != 'http':
        return
    status, fields, path = 200, [], scope['path']
    async def parts():
        while True:
            event = await receive()
            if event['type'] != 'http.request':
                return
            yield event.get('body', b'')
            if not event.get('more_body'):
                return
    if path == '/fields':
        fields = [(b'x-%d' % i, b'v' * 1500) for i in range(20)]
    if path == '/up':
        await send(dict(type='http.response.start', status=200, headers=[]))
        async for part in parts():
            await send(dict(type='http.response.body', body=part, more_body=True))
        await send(dict(type='http.response.body', body=b''))
        return
    if path == '/digest':
        sum, n = hashlib.sha256(), 0
        async for part in parts():
            sum.update(part)
            n += len(part)
        body = b'%s %d' % (sum.hexdigest().encode(), n)
    elif path == '/none':
        status, body = 204, b''
    elif path == '/fields':
        body = b'20'
    else:
        with open(FOLDER + path, 'rb') as f:
            body = f.read()
    if status != 204:
        fields.append((b'content-length', str(len(body)).encode()))
    await send(dict(type='http.response.start', status=status, headers=fields))
    await send(dict(type='http.response.body', body=b'' if scope['method'] == 'HEAD' else body))
'''


def python_with_hypercorn():
    for python in (sys.executable, '/usr/bin/python3'):
        with contextlib.suppress(OSError):
            if subprocess.run([python, '-c', 'import hypercorn'], capture_output=True).returncode == 0:
                return python


class Server:
    """A server of a kind before a folder of files, and what it can do."""

    def __init__(self, kind, args):
        self.kind, self.dir, self.port, self.behind = kind, tempfile.mkdtemp(prefix=f'{kind}-'), free_port(), None
        self.data = {name: random.Random(size).randbytes(size) for name, size in FILES.items()}
        for name, data in self.data.items():
            with open(os.path.join(self.dir, name), 'wb') as f:
                f.write(data)
        os.chmod(self.dir, 0o755)
        self.env = dict(os.environ)
        if kind == 'nghttpd':
            self.words = ['nghttpd', '--no-tls', '-a', HOST, '-d', self.dir, '--echo-upload', '--trailer', 'x-end: always', '-m', '100', str(self.port)]
        elif kind == 'go':
            self.words = [args.go, f'{HOST}:{self.port}', self.dir]
        elif kind == 'nginx':
            behind = free_port()
            self.behind = subprocess.Popen([args.go, f'{HOST}:{behind}', self.dir], stdout=subprocess.DEVNULL, stderr=subprocess.DEVNULL) if args.go else None
            with open(f'{self.dir}/conf', 'w') as f:
                f.write(NGINX.format(dir=self.dir, port=self.port, behind=behind))
            self.words = ['nginx', '-c', f'{self.dir}/conf']
        else:
            with open(f'{self.dir}/served.py', 'w') as f:
                f.write(f'FOLDER = {self.dir!r}\n' + ASGI)
            with open(f'{self.dir}/conf.toml', 'w') as f:
                f.write(f'bind = "{HOST}:{self.port}"\nh2_max_concurrent_streams = 100\nkeep_alive_timeout = 3600\nkeep_alive_max_requests = 1000000000\n')
            self.env['PYTHONPATH'] = self.dir
            self.words = [python_with_hypercorn(), '-m', 'hypercorn', '-c', f'{self.dir}/conf.toml', 'served:app']
        self.start()

    def has(self, *paths):
        """Whether it serves these paths."""
        own = {'nghttpd': {'up'}, 'go': {'up', 'digest', 'none', 'fields', 'trailers'}, 'nginx': {'none', *(['up', 'digest', 'fields'] if self.behind else [])}, 'python': {'up', 'digest', 'none', 'fields'}}
        return set(paths) <= own[self.kind]

    def start(self):
        self.process = subprocess.Popen(self.words, stdout=subprocess.DEVNULL, stderr=subprocess.DEVNULL, env=self.env, start_new_session=True)
        for _ in range(200):
            with contextlib.suppress(OSError), socket.create_connection((HOST, self.port), timeout=1):
                return
            assert self.process.poll() is None, f'{self.kind} has ended'
            time.sleep(0.05)
        raise RuntimeError(f'{self.kind} does not listen')

    def stop(self):
        with contextlib.suppress(ProcessLookupError):
            os.killpg(self.process.pid, 9)
        self.process.wait()

    def close(self):
        self.stop()
        if self.behind:
            self.behind.kill()
            self.behind.wait()
        shutil.rmtree(self.dir, ignore_errors=True)


SCENARIOS = {}


def scenario(f):
    SCENARIOS[f.__name__] = f
    return f


# hypercorn leaves Nagle's algorithm on: with windows of 65,535 octets each window takes 40 ms, through a proxy or without.
WINDOWS = {'python': 'connection_window = 6553500\nstream_window = 1048576'}


@contextlib.contextmanager
def proxied(args, server, **keys):
    proxy = Proxy(args, server.port, **{'limits': WINDOWS.get(server.kind, ''), 'timeouts': 'route = 0', **keys})
    try:
        yield proxy
    except BaseException:
        proxy.journal = None
        with contextlib.suppress(AssertionError):
            proxy.end()
        sys.stderr.write(proxy.said[-400:])
        raise
    proxy.end()


def right(got, body=None, status='200 2'):
    code, said, came, err = got
    assert (code, said) == (0, status), (code, said, len(came), err)
    assert body is None or came == body, f'{len(came)} octets of {len(body)}, or others'


@scenario
def get(args, server):
    """0, 1, 100,000 octets and 64 MiB, by curl and the first three by nghttp."""
    with proxied(args, server) as proxy:
        for name, data in server.data.items():
            right(curl(f'{proxy.url}/{name}'), data)
            if len(data) < 1 << 20:
                run = subprocess.run(['nghttp', f'{proxy.url}/{name}'], capture_output=True, timeout=30)
                assert run.returncode == 0 and run.stdout == data, (name, run.returncode, len(run.stdout), run.stderr[-200:])


@scenario
def head(args, server):
    with proxied(args, server) as proxy:
        got = curl(f'{proxy.url}/middle', '-I')
        right(got)
        assert b'content-length: 100000' in got[2], got[2]


@scenario
def no_content(args, server):
    if server.has('none'):
        with proxied(args, server) as proxy:
            right(curl(f'{proxy.url}/none'), b'', '204 2')


def posted(proxy, server, data, words=()):
    if server.has('up'):
        right(curl(f'{proxy.url}/up', '-X', 'POST', '-H', 'Expect:', '--data-binary', '@-', *words, data=data), data)
    if server.has('digest'):
        right(curl(f'{proxy.url}/digest', '-X', 'POST', '-H', 'Expect:', '--data-binary', '@-', *words, data=data), f'{hashlib.sha256(data).hexdigest()} {len(data)}'.encode())


@scenario
def post(args, server):
    """0, 1, 100,000 octets and 64 MiB: echoed, and by their digests."""
    with proxied(args, server) as proxy:
        for name in ('empty', 'one', 'middle'):
            posted(proxy, server, server.data[name])
    with proxied(args, server, journal=False) as proxy:
        posted(proxy, server, server.data['big'])


@scenario
def trailers(args, server):
    """Of the answer, and of the request where the server tells of it."""
    with proxied(args, server) as proxy:
        if server.kind in ('nghttpd', 'nginx'):
            run = subprocess.run(['nghttp', '-v', f'{proxy.url}/middle'], capture_output=True, timeout=30)
            assert b'x-end: always' in run.stdout, run.stdout[-400:]
        if server.has('trailers'):
            run = subprocess.run(['nghttp', '-v', '--trailer', 'x-mine: also', '-d', os.path.join(server.dir, 'middle'), f'{proxy.url}/trailers'], capture_output=True, timeout=30)
            assert b'x-end: got also' in run.stdout, run.stdout[-400:]


@scenario
def large_fields(args, server):
    """30 KiB of fields either way."""
    with proxied(args, server) as proxy:
        words = [w for i in range(20) for w in ('-H', f'x-{i}: ' + 'v' * 1500)]
        right(curl(f'{proxy.url}/one', *words), server.data['one'])
        if server.has('fields'):
            got = curl(f'{proxy.url}/fields', '-D', '-')
            assert got[0] == 0 and got[1].count('v' * 1500) == 20, (got[0], got[1][-200:], got[3])


# nginx ends a connection with GOAWAY after 1,000 requests, its default, and what was under way beyond that gets 502. So where each
# request must have its answer there are fewer for each connection, and `ends_politely` is about the ends.
@scenario
def many_streams(args, server):
    """Ten connections with a hundred streams each, and warm connections enough for them."""
    with proxied(args, server, connections=12, journal=False) as proxy:
        n = {'python': 2_000, 'nginx': 4_000}.get(server.kind, 20_000)
        found, codes, said = h2load(proxy, '/one', n, 10, 100)
        assert found[0] == n and codes == (n, 0, 0, 0), said[-600:]


@scenario
def many_bodies(args, server):
    with proxied(args, server, connections=4, workers=2, journal=False, limits='connection_window = 6553500') as proxy:
        n = {'python': 200, 'nginx': 1_600}.get(server.kind, 2_000)
        found, codes, said = h2load(proxy, '/middle', n, 8, 8)
        assert found[0] == n and codes == (n, 0, 0, 0), said[-600:]


@scenario
def uploads(args, server):
    if server.has('up'):
        with proxied(args, server, connections=4, workers=2, journal=False, limits='connection_window = 6553500') as proxy:
            found, codes, said = h2load(proxy, '/up', 200, 8, 4, '-d', os.path.join(server.dir, 'middle'))
            assert found[0] == 200 and codes == (200, 0, 0, 0), said[-600:]


@scenario
def ends_politely(args, server):
    """nginx ends a connection after 1,000 requests. That is no failure, so the next one is made at once: of 600 requests a second over
    one connection, which lives less than two seconds then, at least 98 of 100 are answered. Were each end followed by a pause that
    doubles, as that of a connection that fails, only some 60 would be within 20 seconds, and fewer later."""
    if server.kind == 'nginx':
        with proxied(args, server, workers=1, connections=1, journal=False) as proxy:
            n = 12_000
            found, codes, said = h2load(proxy, '/one', n, 4, 4, '--rps', '150')
            print(f'    {codes[0]} of {n} answered', flush=True)
            assert codes[0] + codes[3] == n and codes[0] * 100 >= n * 98, said[-600:]


@scenario
def client_goes_away(args, server):
    """In the middle of an answer, and of what it posts."""
    with proxied(args, server, journal=False) as proxy:
        for _ in range(5):
            curl(f'{proxy.url}/big', '--limit-rate', '4M', timeout=0.5)
            if server.has('up'):
                curl(f'{proxy.url}/up', '-X', 'POST', '-H', 'Expect:', '--data-binary', '@-', '--limit-rate', '4M', timeout=0.5, data=server.data['big'])
        right(curl(f'{proxy.url}/middle'), server.data['middle'])


@scenario
def cluster_goes_and_comes(args, server):
    """In the middle of an answer; a client is told at once, and is served once the cluster is back."""
    with proxied(args, server, journal=False) as proxy:
        client = subprocess.Popen(['curl', '-sS', '--http2-prior-knowledge', '--limit-rate', '8M', '-o', '/dev/null', '-w', '%{http_code}', f'{proxy.url}/big'], stdout=subprocess.PIPE, stderr=subprocess.PIPE)
        time.sleep(1)
        server.stop()
        # a server that had answered nothing by then has the proxy's own answer in its stead
        said = client.communicate(timeout=10)[0]
        assert client.returncode != 0 or said == b'503', 'half an answer counts as whole'
        code, said, body, err = curl(f'{proxy.url}/one', timeout=5)
        assert (code, said) == (0, '503 2'), (code, said, err)
        server.start()
        for _ in range(80):
            got = curl(f'{proxy.url}/one', timeout=5)
            if got[1] == '200 2':
                break
            time.sleep(0.1)
        right(got, server.data['one'])


def there(kind, args):
    if kind == 'go':
        return bool(args.go)
    if kind == 'python':
        return bool(python_with_hypercorn())
    return bool(shutil.which(kind))


def main():
    parser = argparse.ArgumentParser(description=__doc__.splitlines()[0])
    parser.add_argument('h2proxy')
    parser.add_argument('--replay', metavar='H2REPLAY')
    parser.add_argument('--go', metavar='GO_SERVER')
    parser.add_argument('--kind', action='append')
    parser.add_argument('names', nargs='*', metavar='NAME')
    args = parser.parse_intermixed_args()
    bad = 0
    for kind in args.kind or ('nghttpd', 'nginx', 'go', 'python'):
        if not there(kind, args):
            print(f'{kind}: not there')
            continue
        server = Server(kind, args)
        for name, run in SCENARIOS.items():
            if args.names and name not in args.names:
                continue
            start = time.time()
            try:
                run(args, server)
                said = 'ok'
            except Exception as error:
                said, bad = f'FAILED: {type(error).__name__}: {error}', bad + 1
            print(f'{kind} {name}: {said} ({time.time() - start:.1f} s)', flush=True)
        server.close()
    return 1 if bad else 0


if __name__ == '__main__':
    sys.exit(main())
