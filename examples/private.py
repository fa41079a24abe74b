#!/usr/bin/env python3
"""A private channel: its subscriptions are signed by the back end, and its sockets may send events to one another.

    examples/private.py [config.json]      # beside a server that was started with this configuration
"""
from channels import Socket, expect, run


def example(app):
    stranger = Socket(app, "stranger")
    stranger.say("pusher:subscribe", {"channel": "private-desk", "auth": f"{app.key}:{'0' * 64}"})
    expect(stranger.hear()["data"], {"message": "invalid signature", "code": 4315}, "a subscription with a wrong signature")

    first, second = Socket(app, "first"), Socket(app, "second")
    for each in (first, second):
        each.subscribe("private-desk")
    first.say("client-moved", {"x": 3, "y": 4}, channel="private-desk")
    expect(second.wait_for("client-moved")["data"], {"x": 3, "y": 4}, "the event that the second socket heard of the first")

    stranger.say("client-moved", {"x": 0, "y": 0}, channel="private-desk")
    expect(stranger.hear()["data"]["code"], 4314, "an event of a socket that isn't subscribed is refused with")
    for each in (stranger, first, second):
        each.close()


run(example)
