#!/usr/bin/env python3
"""Terminate a user: a user signs in with two windows, is sent an event of its own, and is then signed out everywhere.

    examples/terminate.py [config.json]    # beside a server that was started with this configuration
"""
from channels import Socket, expect, run


def example(app):
    friend = Socket(app, "friend")
    friend.sign_in({"id": "friend", "watchlist": ["mallory"]})
    windows = [Socket(app, "first window"), Socket(app, "second window")]
    for window in windows:
        window.sign_in({"id": "mallory"})
    online = {"events": [{"name": "online", "user_ids": ["mallory"]}]}
    expect(friend.wait_for("pusher_internal:watchlist_events")["data"], online, "what a friend's watchlist says")

    app.publish("#server-to-user-mallory", "notice", "a word with you")
    for window in windows:
        expect(window.wait_for("notice")["data"], "a word with you", f"what the {window.name} heard")

    expect(app.request("POST", "/users/mallory/terminate_connections", body={}), (200, {}), "the reply to the back end")
    for window in windows:
        expect(window.hear()["data"]["code"], 4009, f"the error that the {window.name} is sent")
        expect((window.hear(), window.closed), (None, 4009), "and the code that it is closed with")
    offline = {"events": [{"name": "offline", "user_ids": ["mallory"]}]}
    expect(friend.wait_for("pusher_internal:watchlist_events")["data"], offline, "what the friend's watchlist says then")
    friend.close()


run(example)
