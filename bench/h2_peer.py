"""Frames of HTTP/2 (RFC 9113), written by hand, for peers that keep none of its rules or some, and a probe that keeps them."""
import contextlib, socket, threading, time

HOST = '127.0.0.1'
PREFACE = b'PRI * HTTP/2.0\r\n\r\nSM\r\n\r\n'
DATA, HEADERS, PRIORITY, RST_STREAM, SETTINGS, PUSH_PROMISE, PING, GOAWAY, WINDOW_UPDATE, CONTINUATION = range(10)
END_STREAM, ACK, END_HEADERS = 1, 1, 4
INITIAL_WINDOW_SIZE = 4


def frame(kind, flags, stream, payload=b''):
    return len(payload).to_bytes(3, 'big') + bytes((kind, flags)) + stream.to_bytes(4, 'big') + payload


def setting(key, value):
    return key.to_bytes(2, 'big') + value.to_bytes(4, 'big')


def block(path, method=b'\x82'):
    """A field block of literals without Huffman's code: GET unless another method is given (RFC 7541 appendix A)."""
    return method + b'\x86\x04' + bytes((len(path),)) + path + b'\x01\x04peer'


def get(stream, path):
    return frame(HEADERS, END_STREAM | END_HEADERS, stream, block(path))


def post(stream, path):
    """The head of a POST whose body is still to come."""
    return frame(HEADERS, END_HEADERS, stream, block(path, b'\x83'))


def reset(stream, code=8):
    return frame(RST_STREAM, 0, stream, code.to_bytes(4, 'big'))


def grant(stream, more):
    return frame(WINDOW_UPDATE, 0, stream, more.to_bytes(4, 'big'))


class Peer:
    """A client's end of a connection."""

    def __init__(self, port, settings=b'', timeout=5):
        self.conn = socket.create_connection((HOST, port), timeout=timeout)
        self.conn.setsockopt(socket.IPPROTO_TCP, socket.TCP_NODELAY, 1)
        self.send(PREFACE + frame(SETTINGS, 0, 0, settings))

    def send(self, octets):
        self.conn.sendall(octets)

    def exactly(self, n):
        parts = bytearray()
        while len(parts) < n:
            more = self.conn.recv(n - len(parts))
            if not more:
                raise ConnectionError('the proxy ended the connection')
            parts += more
        return bytes(parts)

    def next(self):
        """The next frame: kind, flags, stream, payload. SETTINGS are acknowledged."""
        head = self.exactly(9)
        kind, flags, stream = head[3], head[4], int.from_bytes(head[5:9], 'big')
        payload = self.exactly(int.from_bytes(head[:3], 'big'))
        if kind == SETTINGS and not flags & ACK:
            self.send(frame(SETTINGS, ACK, 0))
        return kind, flags, stream, payload

    def answer(self, stream):
        """Whether the answer on a stream has the status 200, and its body. Frames of others are passed over."""
        okay, body = False, b''
        while True:
            kind, flags, of, payload = self.next()
            if kind == GOAWAY:
                raise ConnectionError(f'GOAWAY {int.from_bytes(payload[4:8], "big")}')
            if of != stream:
                continue
            if kind == HEADERS:
                okay = b'\x88' in payload[:3]
            if kind == DATA:
                body += payload
                if payload:
                    self.send(grant(0, len(payload)) + (b'' if flags & END_STREAM else grant(stream, len(payload))))
            if kind == RST_STREAM:
                return False, body
            if kind in (HEADERS, DATA) and flags & END_STREAM:
                return okay, body

    def close(self):
        with contextlib.suppress(OSError):
            self.conn.close()


class Probe(threading.Thread):
    """Asks for a path again and again over a connection of its own, and notes how long each answer took, in seconds."""

    def __init__(self, port, path=b'/one', pause=0.05):
        super().__init__(daemon=True)
        self.port, self.path, self.pause = port, path, pause
        self.took, self.failed, self.lives = [], [], True

    def run(self):
        peer, stream = Peer(self.port, timeout=10), 1
        while self.lives:
            start = time.time()
            try:
                peer.send(get(stream, self.path))
                okay, body = peer.answer(stream)
                if not okay:
                    self.failed.append(f'refused after {time.time() - start:.2f} s')
            except OSError as error:
                self.failed.append(f'{type(error).__name__}: {error}')
                return
            self.took.append(time.time() - start)
            stream += 2
            time.sleep(self.pause)
        peer.close()

    def end(self):
        self.lives = False
        self.join(15)
