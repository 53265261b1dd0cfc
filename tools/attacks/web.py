"""Imports over plain HTTP from servers on 127.0.0.1: those of Python's library, over files and over tables, and sockets of this
module that write what they are told: bodies with lengths, in chunks and up to the end, each cut at random places, spoilt ones, heads and
bodies without an end, redirects and other statuses, connections that are cut, reset, kept open or silent. Origins across servers,
relative imports of fetched texts, what a fetched text may not import, frozen texts, and many texts by 1 to 64 workers."""

import collections
import contextlib
import functools
import hashlib
import http.server
import os
import random
import socket
import struct
import threading
import time

import expressions
from attacks.places import text_line
from attacks.runs import DESK, IMPORT, LONG, MOST_BYTES, RESOLVING, new_folder, refused, write, written

# How long the program waits for a peer that says nothing.
PATIENCE = 30
THREE = written(b"3\n")
FOUND = b"HTTP/1.1 200 OK\r\n"
CHUNKED = FOUND + b"Transfer-Encoding: chunked\r\n\r\n"
UNION = b"< Environment : Text | Local : Text | Missing | Remote : Text >"

# What a server does with a connection once it has written: it closes it, or resets it, or says nothing until the other side closes it.
CLOSE, RESET, SILENCE = "close", "reset", "silence"


def stated(body, more=b""):
    return FOUND + b"Content-Length: %d\r\n" % len(body) + more + b"\r\n" + body


def status_is(place, status):
    return refused(b"in %s: status %d" % (place, status), IMPORT)


def failed(place):
    return refused(b"in %s: device failed" % place, DESK)


class Sockets:
    """A server that answers a path with the pieces of its row, one after the other, and then does what the row says. It keeps the
    requests that it got."""

    def __init__(self, rows):
        self.rows, self.requests = rows, []
        self.listener = socket.create_server(("127.0.0.1", 0), backlog=128)
        self.port = self.listener.getsockname()[1]
        self.host = b"127.0.0.1:%d" % self.port
        threading.Thread(target=self.accept, daemon=True).start()

    def place(self, path):
        return b"http://" + self.host + path

    def accept(self):
        with contextlib.suppress(OSError):
            while True:
                stream, _ = self.listener.accept()
                threading.Thread(target=self.answer, args=(stream,), daemon=True).start()

    def answer(self, stream):
        with contextlib.suppress(OSError), stream:
            request = b""
            while not request.endswith(b"\r\n\r\n"):
                piece = stream.recv(4096)
                if piece == b"":
                    return
                request += piece
            self.requests.append(request)
            pieces, after = self.rows[request.split(b" ")[1]]
            for piece in pieces:
                stream.sendall(piece)
            if after == RESET:
                stream.setsockopt(socket.SOL_SOCKET, socket.SO_LINGER, struct.pack("ii", 1, 0))
            elif after == SILENCE:
                stream.recv(1)

    def close(self):
        self.listener.shutdown(socket.SHUT_RDWR)
        self.listener.close()


@contextlib.contextmanager
def sockets(rows):
    server = Sockets(rows)
    try:
        yield server
    finally:
        server.close()


class Table(http.server.BaseHTTPRequestHandler):
    """Python's server over a table: a path has a status, fields and a body, which is written in chunks where its row says so."""

    def do_GET(self):
        server = self.server
        server.asked.append(self.path)
        time.sleep(server.wait)
        status, fields, body, in_chunks = server.rows.get(self.path, (404, {}, b"nothing here", False))
        self.protocol_version = server.version
        self.send_response(status)
        for name, value in fields.items():
            self.send_header(name, value)
        if in_chunks:
            self.send_header("Transfer-Encoding", "chunked")
        elif server.version != "HTTP/1.0":
            self.send_header("Content-Length", str(len(body)))
        self.end_headers()
        if in_chunks:
            for at in range(0, len(body), 7):
                piece = body[at:at + 7]
                self.wfile.write(b"%x\r\n%s\r\n" % (len(piece), piece))
            body = b"0\r\n\r\n"
        self.wfile.write(body)

    def log_message(self, *_):
        pass


class Files(http.server.SimpleHTTPRequestHandler):
    """Python's server over a folder."""

    def log_message(self, *_):
        pass


@contextlib.contextmanager
def served(handler, rows=None, version="HTTP/1.1", wait=0):
    """Python's server: its table, the version that it speaks, and how long it waits before each answer."""
    server = http.server.ThreadingHTTPServer(("127.0.0.1", 0), handler)
    server.daemon_threads = True
    server.request_queue_size = 128
    server.socket.listen(128)
    server.rows, server.version, server.wait, server.asked = rows, version, wait, []
    threading.Thread(target=server.serve_forever, args=(0.05,), daemon=True).start()
    try:
        yield server, b"http://127.0.0.1:%d" % server.server_port
    finally:
        server.shutdown()
        server.server_close()


def tables(runs):
    """Bodies and statuses from Python's server."""
    text = b"let x = 1 in x {- \xce\xbb -} + 2"
    rows = {"/d/a": (200, {}, text, False), "/d/b?q=%20&r=/": (200, {"X": "y"}, b"3", False), "/": (200, {}, b"3", False)}
    statuses = (201, 204, 206, 301, 302, 303, 307, 308, 400, 401, 403, 405, 410, 418, 429, 500, 502, 503, 599)
    rows |= {f"/s{n}": (n, {"Location": "/d/a"}, b"" if n == 204 else b"3", False) for n in statuses}
    for version in ("HTTP/1.0", "HTTP/1.1"):
        in_chunks = {"/chunks": (200, {}, text, True), "/nothing": (200, {}, b"", True)} if version == "HTTP/1.1" else {}
        with served(Table, rows | in_chunks, version) as (server, base):
            for path in [b"/d/a", b"/d/b?q=%20&r=/", b"/", *(path.encode() for path in in_chunks if path != "/nothing")]:
                runs.check_by_workers("tables", f"{version} {path.decode()}", "normalize", base + path, [1, 4], THREE)
            if in_chunks:
                place = base + b"/nothing"
                runs.check("tables", "an empty text", ["normalize"], place, refused(b"in %s: syntax at 0" % place))
                runs.check("tables", "an empty text as text", ["normalize"], place + b" as Text", written(b'""\n'))
            for verb in RESOLVING:
                place = base + b"/none"
                runs.check("tables", f"{verb}, {version} 404", [verb], place, refused(b"in %s: absent" % place, IMPORT))
            runs.check("tables", f"{version} 404, a choice", ["normalize"], base + b"/none ? 3", THREE)
            for n in statuses:
                place = base + b"/s%d" % n
                runs.check("tables", f"{version} {n}", ["normalize"], place + b" ? 1", status_is(place, n))
            if any(path == "/d/a" for path in server.asked[len(server.asked) - len(statuses):]):
                runs.report("tables", "a redirect was followed")


def folders(runs):
    """Files of a folder by Python's server: relative imports of fetched texts, and of a file that imports from the web."""
    with new_folder() as folder:
        write(folder, "web/d/a", "./b + ./e/../e/f + ../top")
        write(folder, "web/d/b", "1")
        write(folder, "web/d/e/f", '../"g h"')
        write(folder, "web/d/g h", "2")
        write(folder, "web/top", "./d/h ? 0")
        write(folder, "web/d/self", "./self")
        write(folder, "web/far", "../../../top")
        with served(functools.partial(Files, directory=os.path.join(folder, "web"))) as (_, base):
            runs.check_by_workers("folders", "relative imports", "normalize", base + b"/d/a", [1, 4, 64], THREE)
            loop = base + b"/d/self"
            runs.check("folders", "a loop", ["normalize"], loop, refused(b"in %s: import cycle" % loop, IMPORT))
            runs.check("folders", "a folder", ["normalize"], base + b"/d ? 1", status_is(base + b"/d", 301))
            write(folder, "file", base + b"/d/a")
            runs.check("folders", "a file that imports it", ["normalize"], b"./file", THREE, folder=folder)
            above = base + b"/../../../top"
            runs.check("folders", "above the top", ["normalize"], base + b"/far", written(b"0\n"), refused(b"in %s: absent" % above, IMPORT),
                       status_is(above, 400))


def streams_by_hand():
    """Streams with what is told of them: a text, or a status."""
    long = b"x" * 70_000
    return [
        (FOUND + b"\r\n3", b"3"), (b"HTTP/1.0 200 OK\r\n\r\n3", b"3"), (b"HTTP/1.1 200\r\n\r\n3", b"3"), (FOUND + b"\n3", b"3"),
        (b"\r\n\r\nHTTP/1.1 200 OK\n\n3", b"3"), (stated(b"3") + b"more", b"3"), (stated(b""), b""), (FOUND + b"\r\n", b""),
        (FOUND + b"content-LENGTH:\t 0003 \r\n\r\n123", b"123"), (FOUND + b"X: \xff\xfe\r\nContent-Length: 1\r\n\r\n3", b"3"),
        (CHUNKED + b"1;a=b\r\n3\r\n0\r\n\r\n", b"3"), (CHUNKED + b"00A \r\n0123456789\r\n1\r\nx\r\n000\r\nX: y\r\n\r\nmore", b"0123456789x"),
        (FOUND + b"transfer-ENCODING: CHUNKED\r\n\r\n0\r\n\n", b""), (stated(b"3", b"Access-Control-Allow-Origin: *\r\n" * 2), b"3"),
        (FOUND + b"A: b\r\n" * 63 + b"Content-Length: 1\r\n\r\n3", b"3"), (CHUNKED + b"0\r\n" + b"A: b\r\n" * 10_000 + b"\r\n", b""),
        (FOUND + b"A: b\r\n" * 64 + b"Content-Length: 1\r\n\r\n3", 0), (FOUND + b"A: " + long + b"\r\n\r\n3", 0),
        (CHUNKED + b"0\r\nA: " + long + b"\r\n\r\n", 0), (CHUNKED + b"1;" + long + b"\r\n3\r\n0\r\n\r\n", 0), (b"\r\n" * 40_000 + stated(b"3"), 0),
        (b"", 0), (b"3", 0), (b"HTTP/2.0 200 OK\r\n\r\n3", 0), (b"HTTP/1.2 200 OK\r\n\r\n3", 0), (b"SSH-2.0-x\r\n", 0), (b"HTTP/0.9 200 OK\r\n\r\n3", 0),
        (b"HTTP/1.1 20 OK\r\n\r\n3", 0), (b"HTTP/1.1 2000 OK\r\n\r\n3", 0), (b"HTTP/1.1 000 OK\r\n\r\n3", 0), (b"HTTP/1.1 100 Continue\r\n\r\n" + stated(b"3"), 100),
        (b"HTTP/1.1 101 Switching Protocols\r\n\r\n", 101), (b"HTTP/1.1 999 Odd\r\n\r\n3", 999), (stated(b"3", b"Content-Length: 1\r\n"), 0),
        (stated(b"3", b"Content-Length: 2\r\n"), 0), (stated(b"3", b"Transfer-Encoding: chunked\r\n"), 0), (FOUND + b"Content-Length: 1, 1\r\n\r\n3", 0),
        (FOUND + b"Content-Length: +1\r\n\r\n3", 0), (FOUND + b"Content-Length: -1\r\n\r\n3", 0), (FOUND + b"Content-Length: 1x\r\n\r\n3", 0),
        (FOUND + b"Content-Length:\r\n\r\n3", 0), (FOUND + b"Content-Length: 0000000000000000001\r\n\r\n3", 0), (FOUND + b"Content-Length: 2\r\n\r\n3", 0),
        (FOUND + b"Transfer-Encoding: gzip, chunked\r\n\r\n0\r\n\r\n", 0), (FOUND + b"Transfer-Encoding: identity\r\n\r\n3", 0),
        (FOUND + b"A: b\r\n c\r\n\r\n3", 0), (FOUND + b"A : b\r\n\r\n3", 0), (FOUND + b"A\r\n\r\n3", 0), (FOUND + b"A: \x00\r\n\r\n3", 0),
        (CHUNKED + b"1\n3\r\n0\r\n\r\n", 0), (CHUNKED + b"1\r\n34\r\n0\r\n\r\n", 0), (CHUNKED + b"1\r\n3\n0\r\n\r\n", 0), (CHUNKED + b"\r\n3\r\n0\r\n\r\n", 0),
        (CHUNKED + b"x\r\n3\r\n0\r\n\r\n", 0), (CHUNKED + b"-1\r\n3\r\n0\r\n\r\n", 0), (CHUNKED + b"0x1\r\n3\r\n0\r\n\r\n", 0),
        (CHUNKED + b"00000000000000001\r\n3\r\n0\r\n\r\n", 0), (CHUNKED + b"FFFFFFFFFFFFFFFF\r\n3\r\n0\r\n\r\n", 0), (CHUNKED + b"1\r\n3\r\n0\r\nA\r\n\r\n", 0),
    ]


def check_stream(runs, group, name, server, path, told):
    place = server.place(path)
    wanted = status_is(place, told) if isinstance(told, int) else text_line(told.decode())
    return runs.check(group, name, ["normalize"], place + b" as Text", wanted)


def pieces_of(stream, size):
    return [stream[at:at + size] for at in range(0, len(stream), size)]


def streams(runs):
    """Streams by hand, whole and in small pieces, and then closed. Those that say where they end are also kept open."""
    table = streams_by_hand()
    rows = {b"/%d" % n: ([stream], CLOSE) for n, (stream, _) in enumerate(table)}
    rows |= {b"/p%d" % n: (pieces_of(stream, 3 if len(stream) < 300 else 3000), CLOSE) for n, (stream, _) in enumerate(table)}
    open_ones = [n for n, (stream, told) in enumerate(table) if told and (isinstance(told, int) or b"ontent-" in stream or b"hunked" in stream)]
    rows |= {b"/k%d" % n: ([table[n][0]], SILENCE) for n in open_ones}
    with sockets(rows) as server:
        for n, (stream, told) in enumerate(table):
            check_stream(runs, "streams", f"{stream[:50]}", server, b"/%d" % n, told)
            check_stream(runs, "streams", f"in pieces, {stream[:50]}", server, b"/p%d" % n, told)
        for n in open_ones:
            check_stream(runs, "streams", f"kept open, {table[n][0][:50]}", server, b"/k%d" % n, table[n][1])
        wanted = b"GET /%d HTTP/1.1\r\nHost: " + server.host + b"\r\nConnection: close\r\n\r\n"
        if server.requests[0] != wanted % 0:
            runs.report("streams", f"the request was {server.requests[0]}")


def random_stream(source):
    """A stream that has a text, the text, how many bytes of it are wanted, and whether each byte behind its head is one of the text."""
    end = lambda: source.choice([b"\r\n", b"\r\n", b"\n"])
    case = lambda name: bytes(source.choice([b, b ^ 0x20]) if chr(b).isalpha() else b for b in name)
    field = lambda name, value: case(name) + b":" + source.choice([b"", b" ", b"\t"]) + value + source.choice([b"", b" "]) + end()
    body = bytes(source.choices(b"abc019 ", k=source.choice([0, 1, 2, 9, 90, 5000])))
    fields = [field(source.choice([b"Server", b"X-A", b"Date"]), b"some value") for _ in range(source.randrange(4))]
    kind = source.choice(["end", "stated", "chunked"])
    if kind == "stated":
        fields.append(field(b"Content-Length", b"0" * source.randrange(3) + b"%d" % len(body)))
    elif kind == "chunked":
        fields.append(field(b"Transfer-Encoding", case(b"chunked")))
    source.shuffle(fields)
    head = source.choice([b"", b"", b"\r\n", b"\n"]) + source.choice([b"HTTP/1.1 200 OK", b"HTTP/1.0 200 Fine", b"HTTP/1.1 200"]) + end()
    head += b"".join(fields) + end()
    if kind != "chunked":
        return head + body, body, len(head + body), len(head) if kind == "end" else None
    chunks, at = b"", 0
    while at < len(body):
        piece = body[at:at + source.choice([1, 2, 10, 16, 1000])]
        at += len(piece)
        size = source.choice([b"%x", b"%X", b"00%x"]) % len(piece)
        chunks += size + source.choice([b"", b"", b";n=v", b";n", b" ;n=\"v\""]) + b"\r\n" + piece + b"\r\n"
    chunks += source.choice([b"0", b"000", b"0;n=v"]) + b"\r\n" + b"".join(field(b"X-T", b"v") for _ in range(source.choice([0, 0, 2]))) + end()
    return head + chunks, body, len(head + chunks), None


def cuts(runs):
    """Random streams, whole and cut at random: a stream that ends too early has no text, but for one that goes up to its end."""
    source = random.Random(runs.seed)
    rows, wanted = {}, []
    for n in range(runs.few(250, 40)):
        stream, body, need, head = random_stream(source)
        for cut in {need, source.randrange(need), max(need - 1, 0), need - 2 if need > 1 else 0}:
            path, sent = b"/%d-%d" % (n, cut), stream[:cut]
            told = body if cut == need else body[:cut - head] if head is not None and cut >= head else 0
            rows[path] = pieces_of(sent, source.choice([1, 2, 7, 100, 10_000])), CLOSE
            wanted.append((path, sent, told))
    with sockets(rows) as server:
        for path, sent, told in wanted:
            check_stream(runs, "cut streams", f"{sent[:60]}..{sent[-20:]}", server, path, told)


def resets(runs):
    """Connections that are reset: nothing is told of a part of a text, and a text that was whole may be told."""
    whole = stated(b"3")
    rows = {b"/%d" % n: ([whole[:n]], RESET) for n in range(len(whole) + 1)}
    with sockets(rows) as server:
        for n in range(0, len(whole) + 1, runs.few(1, 5)):
            place = server.place(b"/%d" % n)
            also = [THREE] if n == len(whole) else []
            runs.check("resets", f"after {n} bytes", ["normalize"], place, failed(place), *also)
        gone = server.place(b"/gone")
    runs.check("resets", "no server", ["normalize"], gone, failed(gone))
    runs.check("resets", "no server, a choice", ["normalize"], gone + b" ? 1", failed(gone))
    runs.check("resets", "no server, not come to", ["normalize"], b"1 ? " + gone, written(b"1\n"))
    for host in (b"127.0.0.1:1", b"127.0.0.1:65536", b"127.0.0.1:99999999999", b"localhost:1"):
        place = b"http://" + host + b"/a"
        runs.check("resets", f"{host}", ["normalize"], place, failed(place))


def endless(piece, count):
    return [piece] * count


def sizes(runs):
    """Texts at and past a megabyte, and heads, bodies and chunk lines without an end."""
    full, over = b"1" + b" " * (MOST_BYTES - 1), b"1" + b" " * MOST_BYTES
    rows = {
        b"/full": ([stated(full)], SILENCE), b"/over": ([stated(over)], CLOSE), b"/end": ([FOUND + b"\r\n" + full], CLOSE),
        b"/chunks": ([CHUNKED + b"100000\r\n" + full + b"\r\n0\r\n\r\n"], SILENCE), b"/many": ([CHUNKED + b"1\r\n1\r\n" * 1_000_000], CLOSE),
        b"/ones": ([CHUNKED + b"1\r\n1\r\n" + b"1\r\n \r\n" * (MOST_BYTES - 1) + b"0\r\n\r\n"], SILENCE),
        b"/endless": ([FOUND + b"\r\n", *endless(b" " * 65_536, 10_000)], SILENCE), b"/claim": ([FOUND + b"Content-Length: 999999999999999999\r\n\r\n", *endless(b" " * 65_536, 10_000)], SILENCE),
        b"/chunk": ([CHUNKED + b"FFFFFFFFFFFFFFFF\r\n", *endless(b" " * 65_536, 10_000)], SILENCE),
        b"/head": ([FOUND, *endless(b"A: b\r\n" * 10_000, 1000)], SILENCE), b"/line": ([FOUND + b"A: ", *endless(b"b" * 65_536, 1000)], SILENCE),
        b"/blank": (endless(b"\r\n" * 30_000, 1000), SILENCE), b"/ext": ([CHUNKED + b"1;", *endless(b"b" * 65_536, 1000)], SILENCE),
        b"/trailer": ([CHUNKED + b"0\r\n", *endless(b"A: b\r\n" * 10_000, 1000)], SILENCE),
    }
    one, large = written(b"1\n"), b"larger than 1048576 bytes"
    wanted = {b"/full": one, b"/end": one, b"/chunks": one, b"/ones": one, b"/over": large, b"/endless": large, b"/claim": large, b"/chunk": large}
    with sockets(rows) as server:
        for path in rows:
            place = server.place(path)
            told = wanted.get(path, status_is(place, 0))
            if told == large:
                told = refused(b"in %s: %s" % (place, large))
            runs.check("sizes", path.decode(), ["normalize"], place, told)


def silent(runs, name, place):
    start = time.monotonic()
    runs.check("silence", name, ["normalize"], place, failed(place), seconds=LONG)
    took = time.monotonic() - start
    if not PATIENCE - 1 <= took <= PATIENCE * (1 + 1.5 * runs.slowness):
        runs.report(name, f"a silent peer was waited for {took:.0f} s")


def silence(runs):
    """Peers that take the connection and say nothing, or stop in the middle: each ends as a failed device after the fixed time. So does
    one that takes no connection."""
    rows = {b"/nothing": ([], SILENCE), b"/status": ([b"HTTP/1.1 2"], SILENCE), b"/head": ([FOUND + b"A: b\r\n"], SILENCE), b"/body": ([stated(b"3")[:-1]], SILENCE),
            b"/end": ([FOUND + b"\r\n3"], SILENCE), b"/chunk": ([CHUNKED + b"2\r\n3"], SILENCE), b"/last": ([CHUNKED + b"1\r\n3\r\n"], SILENCE), b"/trailer": ([CHUNKED + b"0\r\n"], SILENCE)}
    with sockets(rows) as server, socket.socket() as full, contextlib.ExitStack() as waiting:
        full.bind(("127.0.0.1", 0))
        full.listen(0)
        for _ in range(4):
            stream = waiting.enter_context(socket.socket())
            stream.setblocking(False)
            stream.connect_ex(full.getsockname())
        time.sleep(0.2)
        asked = [(path.decode(), server.place(path)) for path in rows]
        asked.append(("no room", b"http://127.0.0.1:%d/a" % full.getsockname()[1]))
        threads = [threading.Thread(target=silent, args=(runs, *row)) for row in asked]
        for thread in threads:
            thread.start()
        for thread in threads:
            thread.join()


def origins(runs):
    """Texts of one server that import those of another: the reply has to allow the origin of the importing text."""
    with served(Table, {}) as (near, base), served(Table, {}) as (far, other):
        own, port = base.decode(), near.server_port
        allowed = {"star": "*", "exact": own, "not": None, "theirs": other.decode(), "null": "null", "slash": own + "/", "host": f"127.0.0.1:{port}",
                   "upper": own.upper(), "list": f"{own} {own}", "name": f"http://localhost:{port}", "https": own.replace("http:", "https:")}
        field = "access-control-ALLOW-origin"
        far.rows = {f"/{name}": (200, {} if value is None else {field: value}, b"3", False) for name, value in allowed.items()}
        near.rows = {f"/{name}": (200, {}, other + f"/{name}".encode(), False) for name in allowed}
        near.rows |= {f"/{name}-text": (200, {}, other + f"/{name} as Text".encode(), False) for name in allowed}
        near.rows |= {"/self": (200, {}, base + b"/three", False), "/three": (200, {}, b"3", False), "/here": (200, {}, b"./three", False),
                      "/choice": (200, {}, other + b"/not ? 1", False), "/named": (200, {}, b"http://localhost:%d/three" % port, False)}
        for name in allowed:
            for path, value in ((f"/{name}", THREE), (f"/{name}-text", text_line("3"))):
                place, child = base + path.encode(), other + f"/{name}".encode()
                refusal = refused(b"in %s: cross-origin import of %s refused" % (place, child), IMPORT)
                runs.check_by_workers("origins", path, "normalize", place, [1, 4], value if name in ("star", "exact") else refusal)
            runs.check("origins", f"{name}, by the input", ["normalize"], other + f"/{name}".encode(), THREE)
        for path, child in (("/choice", other + b"/not"), ("/named", b"http://localhost:%d/three" % port)):
            place = base + path.encode()
            runs.check("origins", path, ["normalize"], place, refused(b"in %s: cross-origin import of %s refused" % (place, child), IMPORT))
        for path in (b"/self", b"/here"):
            runs.check("origins", path.decode(), ["normalize"], base + path, THREE)
        with new_folder() as folder:
            write(folder, "file", other + b"/not")
            runs.check("origins", "by a file", ["normalize"], b"./file", THREE, folder=folder)


def twice(runs):
    """A field that is there twice tells no origin."""
    fields = b"Access-Control-Allow-Origin: *\r\n" * 2
    with sockets({b"/a": ([stated(b"3", fields)], CLOSE)}) as far, sockets({b"/a": ([stated(far.place(b"/a"))], CLOSE)}) as near:
        place = near.place(b"/a")
        runs.check("origins", "two fields", ["normalize"], place, refused(b"in %s: cross-origin import of %s refused" % (place, far.place(b"/a")), IMPORT))


def private(runs):
    """What a fetched text may not import, and what is only named."""
    texts = {b"env:X": b"env:X", b"~/x": b"~/x", b"/etc/passwd": b"/etc/passwd", b"/etc/passwd as Text": b"/etc/passwd", b"env:X ? 1": b"env:X", b"1 + env:X as Text": b"env:X"}
    with served(Table, {}) as (server, base):
        server.rows = {f"/{n}": (200, {}, text, False) for n, text in enumerate(texts)}
        server.rows |= {"/env": (200, {}, b"env:X as Location", False), "/here": (200, {}, b"./b/../c as Location", False), "/relay": (200, {}, b"./0", False)}
        for n, child in enumerate(texts.values()):
            place = base + b"/%d" % n
            line = refused(b"in %s: may not import %s" % (place, child), IMPORT)
            runs.check_by_workers("private", f"{child}, {n}", "normalize", place, [1, 4], line, env={"X": "3", "HOME": "/"})
        inner = base + b"/0"
        runs.check("private", "by a text that is imported", ["normalize"], base + b"/relay", refused(b"in %s: may not import env:X" % inner, IMPORT), env={"X": "3"})
        runs.check("private", "a variable that is named", ["normalize"], base + b"/env", written(UNION + b'.Environment "X"\n'), env={"X": "3"})
        runs.check("private", "a URL that is named", ["normalize"], base + b"/here", written(UNION + b'.Remote "%s/c"\n' % base))
        before = len(server.asked)
        runs.check("private", "a location of the input", ["normalize"], base + b"/d/a as Location", written(UNION + b'.Remote "%s/d/a"\n' % base))
        if len(server.asked) != before:
            runs.report("private", "a location was fetched")


def frozen(runs):
    """Frozen texts of the web are kept in the cache, and then nothing is fetched."""
    digest = hashlib.sha256(expressions.encoded(("nat", 3))).hexdigest().encode()
    wrong = b"0" * 64
    with new_folder() as cache:
        env = {"XDG_CACHE_HOME": cache}
        with served(Table, {"/a": (200, {}, b"1 + 2", False)}) as (server, base):
            root = base + b"/a sha256:" + digest
            differs = refused(b"in %s/a: digest differs: wanted %s got %s" % (base, wrong, digest), IMPORT)
            runs.check("frozen", "a wrong digest", ["normalize"], base + b"/a sha256:" + wrong, differs, env=env)
            runs.check("frozen", "freeze", ["freeze"], base + b"/a", written(root), env=env)
            before = len(server.asked)
            runs.check("frozen", "kept by the run", ["normalize"], root, THREE, env=env)
            runs.check("frozen", "taken from the cache", ["normalize"], root, THREE, env=env)
            if len(server.asked) > before + 1:
                runs.report("frozen", "a text that is in the cache was fetched")
        runs.check("frozen", "without its server", ["normalize"], root, THREE, env=env)


def many(runs):
    """Many texts by several workers, each fetched once, and from a server that takes its time."""
    count = 200
    rows = {f"/n{n}": (200, {}, f"{n}".encode(), n % 2 == 0) for n in range(count)}
    rows["/all"] = (200, {}, b"[ " + b", ".join(b"./n%d" % n for n in range(count)) + b" ]", False)
    wanted = written(("[ " + ", ".join(map(str, range(count))) + " ]\n").encode())
    with served(Table, rows) as (server, base):
        for n in (1, 4, 64):
            del server.asked[:]
            runs.check("many texts", f"{n} workers", ["normalize", "--workers", str(n)], base + b"/all", wanted, seconds=LONG)
            if collections.Counter(server.asked) != collections.Counter(list(rows)):
                runs.report("many texts", f"{n} workers fetched {len(server.asked)} texts, wanted each of {len(rows)} once")
    with served(Table, rows, wait=0.1) as (_, base):
        root = b"[ " + b", ".join(base + b"/n%d" % n for n in range(16)) + b" ]"
        took = {}
        for n in (1, 16):
            start = time.monotonic()
            runs.check("many texts", f"a slow server, {n} workers", ["hash", "--workers", str(n)], root.replace(b"[ ", b"List/length Natural [ "),
                       written(b"sha256:" + hashlib.sha256(expressions.encoded(("nat", 16))).hexdigest().encode() + b"\n"))
            took[n] = time.monotonic() - start
        runs.notes.append(f"16 texts of a server that waits 0.1 s: {took[1]:.2f} s by one worker, {took[16]:.2f} s by 16")
        if took[16] > took[1] / 2:
            runs.report("many texts", f"16 workers took {took[16]:.2f} s where one took {took[1]:.2f} s")


def attack(runs):
    parts = [tables, folders, streams, cuts, resets, sizes, origins, twice, private, frozen, many]
    for part in parts if runs.quick else [*parts, silence]:
        part(runs)
