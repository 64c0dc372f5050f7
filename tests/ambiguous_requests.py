"""Requests that can be understood in two ways, or in none: each is refused with that status, and nothing of it reaches a backend.

REQUESTS: a name, the bytes, and the status that is wanted."""

HOST = b"Host: a\r\n"


def post(fields, body=b"", start=b"POST / HTTP/1.1"):
    """A request with those field lines behind its Host."""
    return start + b"\r\n" + HOST + fields + b"\r\n" + body


CHUNK = b"5\r\nhello\r\n0\r\n\r\n"

REQUESTS = [
    # more than one statement of the length
    ("two lengths", post(b"Content-Length: 5\r\nContent-Length: 6\r\n", b"hello!"), 400),
    ("two equal lengths", post(b"Content-Length: 5\r\nContent-Length: 5\r\n", b"hello"), 400),
    ("two lengths, other case", post(b"Content-Length: 5\r\ncontent-length: 0\r\n", b"hello"), 400),
    ("a list of lengths", post(b"Content-Length: 5, 6\r\n", b"hello!"), 400),
    ("a list of equal lengths", post(b"Content-Length: 5, 5\r\n", b"hello"), 400),
    ("length and coding", post(b"Content-Length: 15\r\nTransfer-Encoding: chunked\r\n", CHUNK), 400),
    ("coding and length", post(b"Transfer-Encoding: chunked\r\nContent-Length: 5\r\n", CHUNK), 400),
    ("length 0 and coding", post(b"Content-Length: 0\r\nTransfer-Encoding: chunked\r\n", CHUNK), 400),
    ("bad length and coding", post(b"Content-Length: x\r\nTransfer-Encoding: chunked\r\n", CHUNK), 400),
    ("two codings", post(b"Transfer-Encoding: chunked\r\nTransfer-Encoding: chunked\r\n", CHUNK), 400),
    ("two codings, one identity", post(b"Transfer-Encoding: identity\r\nTransfer-Encoding: chunked\r\n", CHUNK), 400),
    # what is no length
    ("length with plus", post(b"Content-Length: +5\r\n", b"hello"), 400),
    ("length with minus", post(b"Content-Length: -5\r\n", b"hello"), 400),
    ("hexadecimal length", post(b"Content-Length: 0x5\r\n", b"hello"), 400),
    ("length with a space in it", post(b"Content-Length: 1 5\r\n", b"hello"), 400),
    ("length with a tab in it", post(b"Content-Length: 1\t5\r\n", b"hello"), 400),
    ("no digit", post(b"Content-Length: \r\n", b"hello"), 400),
    ("length with a fraction", post(b"Content-Length: 5.0\r\n", b"hello"), 400),
    ("length of 20 digits", post(b"Content-Length: 00000000000000000005\r\n", b"hello"), 400),
    ("length above 64 bits", post(b"Content-Length: 18446744073709551621\r\n", b"hello"), 400),
    ("length with quotes", post(b'Content-Length: "5"\r\n', b"hello"), 400),
    # codings
    ("coding identity", post(b"Transfer-Encoding: identity\r\n", b"hello"), 501),
    ("coding gzip", post(b"Transfer-Encoding: gzip\r\n", b"hello"), 501),
    ("coding gzip, chunked", post(b"Transfer-Encoding: gzip, chunked\r\n", CHUNK), 501),
    ("coding chunked twice in a list", post(b"Transfer-Encoding: chunked, chunked\r\n", CHUNK), 501),
    ("coding xchunked", post(b"Transfer-Encoding: xchunked\r\n", CHUNK), 501),
    ("coding chunked with a parameter", post(b"Transfer-Encoding: chunked;q=1\r\n", CHUNK), 501),
    ("coding chunked in quotes", post(b'Transfer-Encoding: "chunked"\r\n', CHUNK), 501),
    ("empty coding", post(b"Transfer-Encoding:\r\n", CHUNK), 501),
    ("coding behind a vertical tab", post(b"Transfer-Encoding: \x0bchunked\r\n", CHUNK), 400),
    ("coding gzip in two lines", post(b"Transfer-Encoding: gzip\r\nTransfer-Encoding: chunked\r\n", CHUNK), 400),
    ("coding gzip and length", post(b"Transfer-Encoding: gzip\r\nContent-Length: 5\r\n", b"hello"), 400),
    ("coding gzip without a Host", b"POST / HTTP/1.1\r\nTransfer-Encoding: gzip\r\n\r\nhello", 501),
    ("coding gzip with a bare line feed", post(b"X: a\nTransfer-Encoding: gzip\r\n", b"hello"), 400),
    ("coding in HTTP/1.0", post(b"Transfer-Encoding: chunked\r\n", CHUNK, b"POST / HTTP/1.0"), 400),
    # lines
    ("bare line feeds", b"GET / HTTP/1.1\nHost: a\n\n", 400),
    ("a bare line feed behind the start line", b"GET / HTTP/1.1\nHost: a\r\n\r\n", 400),
    ("a bare line feed behind a field", b"GET / HTTP/1.1\r\nHost: a\nX: b\r\n\r\n", 400),
    ("a bare line feed at the end", b"GET / HTTP/1.1\r\nHost: a\r\n\n", 400),
    ("a field hidden behind a bare line feed", post(b"X: a\nTransfer-Encoding: chunked\r\n", CHUNK), 400),
    ("a bare carriage return in a value", b"GET / HTTP/1.1\r\nHost: a\r\nX: a\rb\r\n\r\n", 400),
    ("a bare carriage return as a line end", b"GET / HTTP/1.1\rHost: a\r\r\n\r\n", 400),
    ("a space before a colon", post(b"Content-Length : 5\r\n", b"hello"), 400),
    ("a tab before a colon", post(b"Transfer-Encoding\t: chunked\r\n", CHUNK), 400),
    ("a folded field", post(b"Transfer-Encoding:\r\n chunked\r\n", CHUNK), 400),
    ("a folded length", post(b"Content-Length: 1\r\n\t5\r\n", b"hello"), 400),
    ("a space before the first field", b"GET / HTTP/1.1\r\n Host: a\r\n\r\n", 400),
    ("a field without a colon", post(b"Content-Length 5\r\n", b"hello"), 400),
    ("a field without a name", post(b": 5\r\n", b"hello"), 400),
    ("a NUL in a value", post(b"X: a\x00b\r\n"), 400),
    ("a NUL in a name", post(b"Content-Length\x00: 5\r\n", b"hello"), 400),
    ("a control byte in a value", post(b"X: a\x01b\r\n"), 400),
    ("a DEL in a value", post(b"X: a\x7fb\r\n"), 400),
    ("two spaces in the start line", b"GET  / HTTP/1.1\r\nHost: a\r\n\r\n", 400),
    ("a space in the target", b"GET /a b HTTP/1.1\r\nHost: a\r\n\r\n", 400),
    # where it goes
    ("no Host", b"GET / HTTP/1.1\r\n\r\n", 400),
    ("two Hosts", b"GET / HTTP/1.1\r\nHost: a\r\nHost: b\r\n\r\n", 400),
    ("two equal Hosts", b"GET / HTTP/1.1\r\nHost: a\r\nhost: a\r\n\r\n", 400),
    ("two Hosts in HTTP/1.0", b"GET / HTTP/1.0\r\nHost: a\r\nHost: b\r\n\r\n", 400),
    ("a list of Hosts", b"GET / HTTP/1.1\r\nHost: a, b\r\n\r\n", 400),
    ("a Host with a user", b"GET / HTTP/1.1\r\nHost: b@a\r\n\r\n", 400),
    ("a target of another host", b"GET http://b/ HTTP/1.1\r\nHost: a\r\n\r\n", 400),
    ("a tunnel", b"CONNECT a:443 HTTP/1.1\r\nHost: a:443\r\n\r\n", 501),
    ("a tunnel with two lengths", b"CONNECT a:443 HTTP/1.1\r\nHost: a:443\r\nContent-Length: 0\r\nContent-Length: 0\r\n\r\n", 400),
    ("a tunnel in lower case", b"connect a:443 HTTP/1.1\r\nHost: a:443\r\n\r\n", 400),
    # what a connection may not name away
    ("Connection names the length", post(b"Connection: content-length\r\nContent-Length: 5\r\n", b"hello"), 400),
    ("Connection names the coding", post(b"Connection: close, Transfer-Encoding\r\nTransfer-Encoding: chunked\r\n", CHUNK), 400),
    ("Connection names the Host", b"GET / HTTP/1.1\r\nHost: a\r\nConnection: Host\r\n\r\n", 400),
    ("Connection names the clients", b"GET / HTTP/1.1\r\nHost: a\r\nConnection: X-Forwarded-For\r\n\r\n", 400),
    (
        "a second Connection names the length",
        post(b"Connection: close\r\nConnection: x,\tContent-Length\r\nContent-Length: 5\r\n", b"hello"),
        400,
    ),
    # versions and sizes
    ("HTTP/2.0", b"PRI * HTTP/2.0\r\n\r\nSM\r\n\r\n", 505),
    ("HTTP/1.2", b"GET / HTTP/1.2\r\nHost: a\r\n\r\n", 505),
    ("HTTP/0.9", b"GET / HTTP/0.9\r\nHost: a\r\n\r\n", 505),
    ("HTTP/2.1", b"GET / HTTP/2.1\r\nHost: a\r\n\r\n", 505),
    ("HTTP/1.2 behind empty lines", b"\r\n\r\nGET / HTTP/1.2\r\nHost: a\r\n\r\n", 505),
    ("HTTP/2.0 and two lengths", post(b"Content-Length: 5\r\nContent-Length: 6\r\n", b"hello!", b"POST / HTTP/2.0"), 505),
    ("HTTP/2 without a second number", b"GET / HTTP/2\r\nHost: a\r\n\r\n", 400),
    ("HTTP/1.10", b"GET / HTTP/1.10\r\nHost: a\r\n\r\n", 400),
    ("HTTP/2.00", b"GET / HTTP/2.00\r\nHost: a\r\n\r\n", 400),
    ("HTTP/a.0", b"GET / HTTP/a.0\r\nHost: a\r\n\r\n", 400),
    ("another version in the target", b"GET /a HTTP/2.0 HTTP/1.1\r\nHost: a\r\n\r\n", 400),
    ("a word like a version in the target", b"GET /a HTTP/x HTTP/1.1\r\nHost: a\r\n\r\n", 400),
    ("HTTP/2.0 behind two spaces", b"GET /  HTTP/2.0\r\nHost: a\r\n\r\n", 400),
    ("HTTP/2.0 in place of a target", b"GET HTTP/2.0\r\nHost: a\r\n\r\n", 400),
    ("HTTP/2.0 behind what is no method", b"G@T / HTTP/2.0\r\nHost: a\r\n\r\n", 400),
    ("no version", b"GET /\r\n\r\n", 400),
    ("a version in lower case", b"GET / http/1.1\r\nHost: a\r\n\r\n", 400),
    ("101 fields", b"GET / HTTP/1.1\r\nHost: a\r\n" + b"X: y\r\n" * 100 + b"\r\n", 431),
    ("101 fields and no end", b"GET / HTTP/1.1\r\nHost: a\r\n" + b"X: y\r\n" * 100, 431),
    ("a head of 65537 bytes", b"GET / HTTP/1.1\r\nHost: a\r\nX: " + b"y" * 65505 + b"\r\n\r\n", 431),
    ("a head above 64 KiB", b"GET / HTTP/1.1\r\nHost: a\r\nX: " + b"y" * 65536 + b"\r\n\r\n", 431),
]

# Requests whose head is right and whose chunks are not: the connection is closed, and the backend gets no whole request.
BODIES = [
    ("a chunk of no digit", b"\r\nhello\r\n0\r\n\r\n"),
    ("a chunk with 0x", b"0x5\r\nhello\r\n0\r\n\r\n"),
    ("a chunk with plus", b"+5\r\nhello\r\n0\r\n\r\n"),
    ("a chunk with minus", b"-5\r\nhello\r\n0\r\n\r\n"),
    ("a chunk with a space behind its size", b"5 \r\nhello\r\n0\r\n\r\n"),
    ("a chunk with a space before its size", b" 5\r\nhello\r\n0\r\n\r\n"),
    ("a chunk of 17 digits", b"00000000000000005\r\nhello\r\n0\r\n\r\n"),
    ("a chunk behind a bare line feed", b"5\nhello\r\n0\r\n\r\n"),
    ("a chunk behind a bare carriage return", b"5\rhello\r\n0\r\n\r\n"),
    ("a chunk with a bare line feed in its extension", b"5;a\nhello\r\n0\r\n\r\n"),
    ("a chunk with a NUL in its extension", b"5;a\x00\r\nhello\r\n0\r\n\r\n"),
    ("a chunk with an extension of 4097 bytes", b"5;" + b"a" * 4097 + b"\r\nhello\r\n0\r\n\r\n"),
    ("a chunk that is longer than it says", b"4\r\nhello\r\n0\r\n\r\n"),
    ("a chunk that is shorter than it says", b"6\r\nhello\r\n0\r\n\r\n"),
    ("a chunk that a bare line feed ends", b"5\r\nhello\n0\r\n\r\n"),
    ("a last line that a bare line feed ends", b"5\r\nhello\r\n0\r\n\n"),
    ("a trailer without a colon", b"5\r\nhello\r\n0\r\nabc\r\n\r\n"),
    ("a trailer with a space before its colon", b"5\r\nhello\r\n0\r\na : b\r\n\r\n"),
    ("a folded trailer", b"5\r\nhello\r\n0\r\na: b\r\n c\r\n\r\n"),
    ("a trailer with a NUL", b"5\r\nhello\r\n0\r\na: \x00\r\n\r\n"),
    ("trailers above 64 KiB", b"5\r\nhello\r\n0\r\n" + (b"a: " + b"b" * 1000 + b"\r\n") * 66 + b"\r\n"),
]

# Heads that are right, with the length of their bodies in bytes as they come, None where chunks say it.
GOOD = [
    ("a request without a body", b"GET / HTTP/1.1\r\nHost: a\r\n\r\n", b""),
    ("empty lines before it", b"\r\n\r\nGET / HTTP/1.1\r\nHost: a\r\n\r\n", b""),
    ("a length", post(b"Content-Length: 5\r\n"), b"hello"),
    ("a length with white space around it", post(b"Content-Length: \t5 \r\n"), b"hello"),
    ("a length with zeros", post(b"Content-Length: 0005\r\n"), b"hello"),
    ("chunks", post(b"Transfer-Encoding: chunked\r\n"), CHUNK),
    ("chunks in other case", post(b"transfer-ENCODING: Chunked\r\n"), CHUNK),
    ("chunks with extensions and trailers", post(b"Transfer-Encoding: chunked\r\n"), b"5;a=\"b\"\r\nhello\r\n00\r\nX: y\r\nZ:\r\n\r\n"),
    ("HTTP/1.0 without a Host", b"GET / HTTP/1.0\r\n\r\n", b""),
    ("all of a server", b"OPTIONS * HTTP/1.1\r\nHost: a\r\n\r\n", b""),
    ("100 fields", b"GET / HTTP/1.1\r\nHost: a\r\n" + b"X: y\r\n" * 99 + b"\r\n", b""),
]
