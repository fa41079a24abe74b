#!/usr/bin/env python3
"""Subscribe and publish: two sockets subscribe to a channel, and the back end publishes an event there, once to both and
once to all but the first.

    examples/publish.py [config.json]      # beside a server that was started with this configuration
"""
from channels import Socket, expect, run

CHANNEL = "publish-example"  # of its own, so that nobody else's subscription is counted


def example(app):
    first, second = Socket(app, "first"), Socket(app, "second")
    for each in (first, second):
        each.subscribe(CHANNEL)

    reply = app.publish(CHANNEL, "headline", {"text": "It works"}, info="subscription_count")
    expect(reply, {"channels": {CHANNEL: {"subscription_count": 2}}}, "the reply to the back end")
    for each in (first, second):
        expect(each.wait_for("headline")["data"], {"text": "It works"}, f"what the {each.name} socket heard")

    app.publish(CHANNEL, "aside", 1, socket_id=first.id)
    app.publish(CHANNEL, "end", 2)
    expect(second.wait_for("aside")["data"], 1, "the event that excepts the first, as the second socket heard it")
    expect(first.hear()["event"], "end", "the next event of the first socket")
    for each in (first, second):
        each.close()


run(example)
