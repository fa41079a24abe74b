"""The chat's back end. It serves the page, lets people in under a name, signs their subscriptions and sign-ins, publishes
what they write by the HTTP API, and takes the server's webhooks. `run` starts it beside the server."""
import contextlib
import hmac
import json
import os
import re
import secrets
import sys
import urllib.parse
from http.server import BaseHTTPRequestHandler, ThreadingHTTPServer

HERE = os.path.dirname(os.path.abspath(__file__))
sys.path.insert(0, os.path.dirname(HERE))
from channels import App, Failed, saw  # noqa: E402

ROOM, WEBHOOKS = "presence-room", "private-webhooks"
PAGES = {"/": ("page.html", "text/html"), "/chat.js": ("chat.js", "text/javascript")}


class Refused(Exception):
    """The page asked for something that it may not have; the status of the reply."""


def back_end_for(app):
    def token_of(person):
        """What a page shows to be this person: the person, signed. A real back end has sessions of its own in its place."""
        text = json.dumps(person)
        return f"{app.signature('person ' + text)}{text}"

    def person_of(form):
        signature, text = form["token"][:64], form["token"][64:]
        if not hmac.compare_digest(signature.encode(), app.signature("person " + text).encode()):
            raise Refused(403)
        return json.loads(text)

    def socket_of(form):
        """A socket id as the server gives them: nothing else is signed."""
        if not re.fullmatch(r"[0-9]{1,19}\.[0-9]{1,19}", form["socket_id"]):
            raise Refused(400)
        return form["socket_id"]

    def text_of(form, most):
        text = form["text"].strip()
        if not 1 <= len(text) <= most:
            raise Refused(400)
        return text

    def enter(form):
        person = {"id": secrets.token_hex(4), "name": text_of(form, 40)}
        return {**person, "token": token_of(person)}

    def subscribe(form):
        """Who may subscribe to a private or presence channel is the back end's to say: here, everyone to these two."""
        person, channel, data = person_of(form), form["channel_name"], None
        if channel == ROOM:
            data = json.dumps({"user_id": person["id"], "user_info": {"name": person["name"]}})
        elif channel != WEBHOOKS:
            raise Refused(403)
        signed = {"auth": app.channel_auth(socket_of(form), channel, data)}
        return signed if data is None else {**signed, "channel_data": data}

    def sign_in(form):
        data = json.dumps({"id": person_of(form)["id"]})
        return {"auth": app.user_auth(socket_of(form), data), "user_data": data}

    def write(form):
        app.publish(ROOM, "message", {**person_of(form), "text": text_of(form, 1000)})

    def whisper(form):
        to = form["to"]
        if not re.fullmatch(r"[0-9a-f]{8}", to):
            raise Refused(400)
        app.publish(f"#server-to-user-{to}", "whisper", {**person_of(form), "text": text_of(form, 1000)})

    def sign_out(form):
        """Closes all windows of this person, with 4009. The token stays good here; a real back end ends the session too."""
        status, reply = app.request("POST", f"/users/{person_of(form)['id']}/terminate_connections", body={})
        if status != 200:
            raise Failed(f"the server refused to close connections with {status} {reply}")

    forms = {
        "/enter": enter, "/auth": subscribe, "/user-auth": sign_in,
        "/message": write, "/whisper": whisper, "/sign-out": sign_out,
    }

    class BackEnd(BaseHTTPRequestHandler):
        timeout = 30  # seconds that a read may take, so that a peer that says nothing doesn't keep its thread

        def do_GET(self):
            if self.path == "/settings":
                self.reply(200, json.dumps({"key": app.key, "port": app.port}).encode())
            elif self.path in PAGES:
                name, kind = PAGES[self.path]
                with open(os.path.join(HERE, name), "rb") as file:
                    self.reply(200, file.read(), f"{kind}; charset=utf-8")
            else:
                self.reply(404)

        def do_POST(self):
            length = self.headers.get("Content-Length", "")
            if not re.fullmatch(r"[0-9]{1,7}", length):  # a webhook has little more than 1,000,000 bytes at most
                return self.reply(400)
            body = self.rfile.read(int(length))
            try:
                if self.path == "/hooks":
                    self.take_webhook(body)
                elif self.path not in forms:
                    self.reply(404)
                else:
                    form = dict(urllib.parse.parse_qsl(body.decode(), keep_blank_values=True))
                    self.reply(200, json.dumps(forms[self.path](form) or {}).encode())
            except Refused as refused:
                self.reply(refused.args[0])
            except (KeyError, ValueError):
                self.reply(400)
            except (Failed, OSError) as fault:
                saw(f"the server wasn't reached, or refused: {fault}")
                self.reply(502)

        def take_webhook(self, body):
            if not app.has_signed(self.headers, body):
                raise Refused(401)
            self.reply(200)
            for event in json.loads(body)["events"]:
                saw(f"webhook: {json.dumps(event)}")
                try:
                    app.publish(WEBHOOKS, "webhook", event)
                except (Failed, OSError) as fault:  # such as an event that is too long: the others are shown all the same
                    saw(f"no page was told of it: {fault}")

        def reply(self, status, body=b"", kind="application/json"):
            self.send_response(status)
            self.send_header("Content-Type", kind)
            self.send_header("Content-Length", str(len(body)))
            # who posts webhooks reads the status line alone, and may be gone before the rest is written
            with contextlib.suppress(ConnectionError):
                self.end_headers()
                self.wfile.write(body)

        def log_message(self, *_):
            pass  # the log is for webhooks

    return BackEnd


def back_end(app, port):
    """The back end of this app, which `serve_forever` then runs."""
    return ThreadingHTTPServer(("127.0.0.1", port), back_end_for(app))


def app_of_chat():
    return App.of(os.path.join(HERE, "config.json"))
