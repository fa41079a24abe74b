"""What the examples share: an app's signatures and requests, and a WebSocket client. Python's standard library alone."""
import base64
import hashlib
import hmac
import http.client
import json
import os
import socket
import struct
import sys
import time
import urllib.parse

HERE = os.path.dirname(os.path.abspath(__file__))
WAIT = 10  # seconds that an example waits for the server, before it gives up


class Failed(Exception):
    """The server did something else than the example expects, or nothing in time."""


class App:
    """An app, as its back end knows it: where its server is, and the secret that signs."""

    def __init__(self, config):
        self.app_id, self.key, self.secret = config["app_id"], config["key"], config["secret"].encode()
        self.host, port = config.get("listen", "127.0.0.1:6001").split(":")
        self.port = int(port)
        self.webhook = config.get("webhook")

    @staticmethod
    def of(path=os.path.join(HERE, "config.json")):
        """The app of a server's configuration file."""
        with open(path, encoding="utf-8") as file:
            return App(json.load(file))

    def signature(self, text):
        """HMAC-SHA256 by the app's secret, in lower-case hex."""
        return hmac.new(self.secret, text if isinstance(text, bytes) else text.encode(), hashlib.sha256).hexdigest()

    def channel_auth(self, socket_id, channel, channel_data=None):
        """The `auth` of a subscription to a private channel, or with channel data to a presence channel."""
        signed = f"{socket_id}:{channel}" + (f":{channel_data}" if channel_data is not None else "")
        return f"{self.key}:{self.signature(signed)}"

    def user_auth(self, socket_id, user_data):
        """The `auth` of a sign-in."""
        return f"{self.key}:{self.signature(f'{socket_id}::user::{user_data}')}"

    def signed_target(self, method, path, query=None, body=b"", now=None):
        """The target of a request to the HTTP API, with its signature."""
        values = {**(query or {}), "auth_key": self.key, "auth_version": "1.0"}
        values["auth_timestamp"] = str(int(time.time() if now is None else now))
        if body:
            values["body_md5"] = hashlib.md5(body).hexdigest()
        in_order = sorted((name.lower(), value) for name, value in values.items())
        plain = "&".join(f"{name}={value}" for name, value in in_order)
        signature = self.signature(f"{method}\n{path}\n{plain}")
        return f"{path}?{urllib.parse.urlencode(in_order)}&auth_signature={signature}"

    def request(self, method, path, query=None, body=None):
        """Sends one signed request below `/apps/<id>` and returns the status and the object of its reply."""
        path = f"/apps/{self.app_id}{path}"
        text = b"" if body is None else json.dumps(body, ensure_ascii=False).encode()
        connection = http.client.HTTPConnection(self.host, self.port, timeout=WAIT)
        try:
            connection.request(method, self.signed_target(method, path, query, text), text or None)
            reply = connection.getresponse()
            return reply.status, json.loads(reply.read())
        finally:
            connection.close()

    def publish(self, channel, event, data, **more):
        """Publishes an event on a channel; `socket_id` and `info` may be given beside it. Returns the reply's object."""
        body = {"name": event, "channel": channel, "data": json.dumps(data), **more}
        status, reply = self.request("POST", "/events", body=body)
        if status != 200:
            raise Failed(f"the server refused an event with {status} {reply}")
        return reply

    def has_signed(self, headers, body):
        """Whether this app's server has signed a webhook: the key is the app's, and the signature is that of the bytes as they came."""
        given = headers.get("X-Pusher-Signature", "").encode()  # as bytes, since a text that isn't ASCII can't be compared
        return headers.get("X-Pusher-Key") == self.key and hmac.compare_digest(given, self.signature(body).encode())


class Socket:
    """A connection of a client: WebSocket protocol 7 of the Pusher Channels documentation, over RFC 6455."""

    def __init__(self, app, name="socket"):
        self.app, self.name = app, name
        self.plain = socket.create_connection((app.host, app.port), timeout=WAIT)
        self.came, self.closed = b"", None
        self._shake_hands()
        self.id = self.wait_for("pusher:connection_established")["data"]["socket_id"]

    def _shake_hands(self):
        """The opening handshake of RFC 6455, section 4."""
        key = base64.b64encode(os.urandom(16)).decode()
        lines = [
            f"GET /app/{self.app.key}?protocol=7 HTTP/1.1",
            f"Host: {self.app.host}:{self.app.port}",
            "Upgrade: websocket",
            "Connection: Upgrade",
            f"Sec-WebSocket-Key: {key}",
            "Sec-WebSocket-Version: 13",
        ]
        self.plain.sendall("\r\n".join([*lines, "", ""]).encode())
        while b"\r\n\r\n" not in self.came:
            self._read_more()
        head, self.came = self.came.split(b"\r\n\r\n", 1)
        accept = base64.b64encode(hashlib.sha1(f"{key}258EAFA5-E914-47DA-95CA-C5AB0DC85B11".encode()).digest())
        if not head.startswith(b"HTTP/1.1 101 ") or b": " + accept not in head:
            raise Failed(f"the server didn't shake hands: {head.decode(errors='replace')}")

    def _read_more(self):
        try:
            more = self.plain.recv(65536)
        except socket.timeout:
            raise Failed(f"{self.name}: nothing came in {WAIT} seconds") from None
        if not more:
            raise Failed(f"{self.name}: the server closed the connection without a word")
        self.came += more

    def _take(self, count):
        while len(self.came) < count:
            self._read_more()
        taken, self.came = self.came[:count], self.came[count:]
        return taken

    def _send_frame(self, kind, payload):
        """A client masks each of its frames (RFC 6455, section 5.3)."""
        size, mask = len(payload), os.urandom(4)
        length = bytes([0x80 | size]) if size < 126 else struct.pack(">BH", 254, size) if size < 65536 else struct.pack(">BQ", 255, size)
        masked = bytes(byte ^ mask[at % 4] for at, byte in enumerate(payload))
        self.plain.sendall(bytes([0x80 | kind]) + length + mask + masked)

    def _next_text(self):
        """The next text message, or None once the connection was closed."""
        text = b""
        while True:
            first, second = self._take(2)
            size = second & 0x7F
            if size > 125:
                size = int.from_bytes(self._take(2 if size == 126 else 8), "big")
            payload, kind = self._take(size), first & 0x0F
            if kind == 8:
                self.closed = int.from_bytes(payload[:2], "big") if payload else 1005
                self.close()
                return None
            if kind == 9:
                self._send_frame(10, payload)
            if kind in (0, 1):
                text += payload
                if first & 0x80:
                    return text.decode()

    def say(self, event, data=None, **more):
        """Says a message: `data` is left out where it is None."""
        message = {"event": event, **({} if data is None else {"data": data}), **more}
        self._send_frame(1, json.dumps(message, ensure_ascii=False).encode())

    def hear(self):
        """The next frame as an object, its data read where they are JSON in a string; None once the connection was closed."""
        while True:
            text = self._next_text()
            frame = None if text is None else json.loads(text)
            if frame and frame["event"] == "pusher:ping":
                self.say("pusher:pong", {})
                continue
            if frame and isinstance(frame.get("data"), str):
                try:
                    frame["data"] = json.loads(frame["data"])
                except ValueError:
                    pass  # plain text, which an event's data may be
            return frame

    def wait_for(self, event):
        """Passes over frames until one of this event comes, and returns it. A refusal in its place is a failure."""
        while True:
            frame = self.hear()
            if frame is None:
                raise Failed(f"{self.name}: closed with {self.closed} before {event} came")
            if frame["event"] == event:
                return frame
            if frame["event"] == "pusher:error":
                raise Failed(f"{self.name}: refused with {frame['data']} before {event} came")

    def subscribe(self, channel, user=None):
        """Subscribes, as a user where the channel is a presence channel, and returns what the server answers."""
        data = {"channel": channel}
        channel_data = json.dumps(user) if user else None
        if channel.startswith(("private-", "presence-")):
            data["auth"] = self.app.channel_auth(self.id, channel, channel_data)
        if channel_data:
            data["channel_data"] = channel_data
        self.say("pusher:subscribe", data)
        return self.wait_for("pusher_internal:subscription_succeeded")["data"]

    def sign_in(self, user):
        """Signs a user in: an object with `id`, and `watchlist` where wanted."""
        user_data = json.dumps(user)
        self.say("pusher:signin", {"auth": self.app.user_auth(self.id, user_data), "user_data": user_data})
        self.wait_for("pusher:signin_success")

    def close(self):
        """Ends the connection, without waiting for the other side."""
        try:
            self._send_frame(8, struct.pack(">H", 1000))
        except OSError:
            pass  # it is closed already
        self.plain.close()


def saw(text):
    """Says what an example saw."""
    print(text, flush=True)


def expect(found, wanted, what):
    """Ends the example where something else came."""
    if found != wanted:
        raise Failed(f"{what}: {found!r} came, and not {wanted!r}")
    saw(f"{what}: {found!r}")


def run(example):
    """Runs an example for the app of the configuration that is named, and ends with 0 where it saw all that it should, else with 1."""
    paths = [word for word in sys.argv[1:] if not word.startswith("--")]
    try:
        example(App.of(*paths[:1]))
    except (Failed, OSError, http.client.HTTPException) as fault:
        hint = "; was a server started with this configuration?" if isinstance(fault, ConnectionRefusedError) else ""
        print(f"failed: {fault}{hint}", file=sys.stderr)
        sys.exit(1)
    saw("ok")
