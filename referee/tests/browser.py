#!/usr/bin/env python3
"""A stand-in for a browser in tests: it takes streams from the page's server, replies to each line that it was done, and never replies to a line that
has "stuck".
"""
import json
import sys
import time
import urllib.request


def main():
    address = sys.argv[-1]
    if address == "--version":
        print("a browser 1.0")
        return
    replies = b""
    while True:
        with urllib.request.urlopen(urllib.request.Request(address + "next", replies, method="POST")) as given:
            lines = json.load(given)
        while any("stuck" in it for it in lines):
            time.sleep(60)
        replies = json.dumps([told_to(it) for it in lines]).encode()


def told_to(line):
    given = json.loads(line)
    return {"player": {"name": "page", "numbers": True}} if "hello" in given else {"ok": None}


main()
