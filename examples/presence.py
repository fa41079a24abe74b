#!/usr/bin/env python3
"""Presence: who is on a channel, who comes and who goes, and the same as the back end asks for it.

    examples/presence.py [config.json]     # beside a server that was started with this configuration
"""
from channels import Socket, expect, run

ROOM = "presence-examples"
ADA = {"user_id": "ada", "user_info": {"name": "Ada"}}
BOB = {"user_id": "bob", "user_info": {"name": "Bob"}}


def example(app):
    ada, bob, again = Socket(app, "ada"), Socket(app, "bob"), Socket(app, "bob's second window")
    expect(ada.subscribe(ROOM, ADA)["presence"]["ids"], ["ada"], "who is there, as Ada comes")
    there = bob.subscribe(ROOM, BOB)["presence"]
    expect(there, {"ids": ["ada", "bob"], "hash": {"ada": {"name": "Ada"}, "bob": {"name": "Bob"}}, "count": 2}, "as Bob comes")
    expect(ada.wait_for("pusher_internal:member_added")["data"], BOB, "what Ada hears of it")
    again.subscribe(ROOM, BOB)

    status, counts = app.request("GET", f"/channels/{ROOM}", {"info": "user_count,subscription_count"})
    expect((status, counts), (200, {"occupied": True, "user_count": 2, "subscription_count": 3}), "what the back end is told")
    expect(app.request("GET", f"/channels/{ROOM}/users"), (200, {"users": [{"id": "ada"}, {"id": "bob"}]}), "and who it is")

    bob.close()
    again.close()
    expect(ada.wait_for("pusher_internal:member_removed")["data"], {"user_id": "bob"}, "after both windows of Bob closed Ada hears")
    ada.close()


run(example)
