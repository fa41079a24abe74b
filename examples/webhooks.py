#!/usr/bin/env python3
"""A receiver of webhooks: it listens where the configuration's `webhook` says, checks each signature and says what came.

    examples/webhooks.py [config.json]           # until it is interrupted
    examples/webhooks.py [config.json] --once    # subscribes and leaves as well, and ends once it was told of both

Start it before the server has something to tell: a webhook that wasn't received is posted again, after 1, 2, 4 .. 64 seconds, and
those behind it wait. So what came before it was started may take a minute.
"""
import json
import os
import queue
import sys
import urllib.parse
from http.server import BaseHTTPRequestHandler, HTTPServer
from threading import Thread

from channels import Failed, Socket, run, saw

EVENTS = queue.Queue()
LONGEST = 70  # seconds, in which a webhook is tried again


def receiver_for(app):
    class Receiver(BaseHTTPRequestHandler):
        timeout = 10  # seconds that a read may take, so that a peer that says nothing doesn't hold up the others

        def do_POST(self):
            body = self.rfile.read(int(self.headers.get("Content-Length", 0)))
            is_signed = app.has_signed(self.headers, body)
            # a status from 200 to 299 tells the server that the webhook was received
            self.send_response(200 if is_signed else 401)
            self.send_header("Content-Length", "0")
            self.end_headers()
            if not is_signed:
                saw("a webhook that the server hasn't signed")
                return
            for event in json.loads(body)["events"]:
                saw(f"webhook: {json.dumps(event)}")
                EVENTS.put(event)

        def log_message(self, *_):
            pass

    return Receiver


def wait_for(name, channel):
    try:
        while EVENTS.get(timeout=LONGEST) != {"name": name, "channel": channel}:
            pass
    except queue.Empty:
        raise Failed(f"no webhook {name} of {channel} came in {LONGEST} seconds") from None


def example(app):
    if not app.webhook:
        raise Failed("the configuration has no `webhook`")
    at = urllib.parse.urlsplit(app.webhook)
    server = HTTPServer((at.hostname, at.port), receiver_for(app))
    saw(f"waiting for webhooks at {app.webhook}")
    if "--once" not in sys.argv:
        server.serve_forever()
    Thread(target=server.serve_forever, daemon=True).start()
    channel = f"hooked-{os.getpid()}"
    socket = Socket(app)
    socket.subscribe(channel)
    wait_for("channel_occupied", channel)
    socket.close()
    wait_for("channel_vacated", channel)


if __name__ == "__main__":
    try:
        run(example)
    except KeyboardInterrupt:
        pass
