#!/usr/bin/env python3
"""An origin for Pushpin, by the standard library alone.

    examples/origin.py PORT [KEY]

GET / is a page. POST /echo answers the body that it was sent. GET /count comes in chunks. GET /signed says whether the request
carries a token that was signed with KEY. GET /events/CHANNEL asks by GRIP for a stream of the channel, behind the item `a`.
GET /feed/CHANNEL asks for one too, and has a link to /feed/CHANNEL/since, which answers with what follows the last item that the
client has. GET /poll/CHANNEL asks for a long poll of the channel, of two seconds.
"""

import base64
import hashlib
import hmac
import json
import sys
import time
from http.server import BaseHTTPRequestHandler, ThreadingHTTPServer


def decoded(part):
    """The bytes of one part of a token: base64url without its padding."""
    return base64.urlsafe_b64decode(part + "=" * (-len(part) % 4))


def is_signed(key, token):
    """Whether a token was signed with the key, by Pushpin, and hasn't expired."""
    try:
        head, claims, mac = token.split(".")
        wanted = hmac.new(key, f"{head}.{claims}".encode(), hashlib.sha256).digest()
        says = json.loads(decoded(claims))
        return hmac.compare_digest(wanted, decoded(mac)) and says["iss"] == "pushpin" and says["exp"] > time.time()
    except (ValueError, KeyError):
        return False


# the items that the origin remembers of each feed: an id, and the content
REMEMBERED = [("a", b""), ("b", b"one\n"), ("c", b"two\n")]


def since(last):
    """The contents of what is remembered behind the item that `grip-last` tells, and the id of the last of them."""
    known = [name for name, _ in REMEMBERED]
    told = last.partition("last-id=")[2]
    behind = REMEMBERED[known.index(told) + 1 :] if told in known else []
    return b"".join(content for _, content in behind), behind[-1][0] if behind else told


class Handler(BaseHTTPRequestHandler):
    protocol_version = "HTTP/1.1"

    def answer(self, code, body, **fields):
        self.send_response_only(code)
        for name, value in {"content-type": "text/plain", **fields, "content-length": len(body)}.items():
            self.send_header(name.replace("_", "-"), value)
        self.end_headers()
        self.wfile.write(body)

    def do_GET(self):
        if self.path == "/":
            self.answer(200, b"Hello from the origin\n")
        elif self.path == "/count":
            self.send_response_only(200)
            self.send_header("transfer-encoding", "chunked")
            self.end_headers()
            for number in (b"1\n", b"2\n", b"3\n"):
                self.wfile.write(b"%x\r\n%s\r\n" % (len(number), number))
                time.sleep(0.1)
            self.wfile.write(b"0\r\n\r\n")
        elif self.path == "/signed":
            known = is_signed(self.server.key, self.headers.get("grip-sig", ""))
            self.answer(200, b"signed\n" if known else b"not signed\n")
        elif self.path.startswith("/events/"):
            channel = self.path.removeprefix("/events/")
            self.answer(200, b"welcome\n", grip_hold="stream", grip_channel=f"{channel}; prev-id=a")
        elif self.path.startswith("/feed/") and self.path.endswith("/since"):
            channel = self.path.removeprefix("/feed/").removesuffix("/since")
            page, last = since(self.headers.get("grip-last", ""))
            self.answer(200, page, grip_hold="stream", grip_channel=f"{channel}; prev-id={last}")
        elif self.path.startswith("/feed/"):
            channel = self.path.removeprefix("/feed/")
            link = f"</feed/{channel}/since>; rel=next"
            self.answer(200, b"welcome\n", grip_hold="stream", grip_channel=f"{channel}; prev-id=a", grip_link=link)
        elif self.path.startswith("/poll/"):
            channel = self.path.removeprefix("/poll/")
            self.answer(200, b"nothing new\n", grip_hold="response", grip_channel=channel, grip_timeout="2")
        else:
            self.answer(404, b"The origin has no such page\n")

    def do_POST(self):
        body = self.rfile.read(int(self.headers.get("content-length", 0)))
        self.answer(200 if self.path == "/echo" else 404, body)


if __name__ == "__main__":
    server = ThreadingHTTPServer(("127.0.0.1", int(sys.argv[1])), Handler)
    server.key = sys.argv[2].encode() if len(sys.argv) > 2 else b""
    server.serve_forever()
