"""A page of a browser as a player: it takes streams from a small server of this machine, and gives replies back.

A browser that has a name is started without a window, with a profile of its own, and ended with the player. Without a name the address is printed, and
any browser of this machine may open it.
"""
import http.server
import json
import os
import queue
import shutil
import signal
import subprocess
import sys
import tempfile
import threading

from judging.hanging import Hanging
from judging.process import Hung

HERE = os.path.dirname(os.path.dirname(os.path.abspath(__file__)))
PLAYERS = os.path.join(HERE, "players")
STARTS = 60

BROWSERS = {
    "chromium": (
        ("chromium", "chromium-headless-shell"),
        ["--headless", "--no-sandbox", "--disable-gpu", "--no-first-run", "--disable-background-timer-throttling", "--user-data-dir={profile}"],
    ),
    "firefox": (("firefox-esr", "firefox"), ["--headless", "--no-remote", "--profile", "{profile}"]),
}

FILES = {"/": ("page.html", "text/html; charset=utf-8"), "/answers.js": ("answers.js", "text/javascript; charset=utf-8")}


class Silent(Exception):
    """The page gave nothing back in time."""


class Handler(http.server.BaseHTTPRequestHandler):
    protocol_version = "HTTP/1.1"

    def log_message(self, *_):
        pass

    def give(self, body, form="application/json"):
        self.send_response(200)
        self.send_header("Content-Type", form)
        self.send_header("Cache-Control", "no-store")
        self.send_header("Content-Length", str(len(body)))
        self.end_headers()
        self.wfile.write(body)

    def do_GET(self):
        if self.path not in FILES:
            self.send_error(404)
            return
        name, form = FILES[self.path]
        with open(os.path.join(PLAYERS, name), "rb") as file:
            self.give(file.read(), form)

    def do_POST(self):
        """Takes the replies to the last stream, and gives the next one."""
        body = self.rfile.read(int(self.headers["Content-Length"]))
        if body:
            self.server.replies.put(body)
        try:
            self.give(self.server.streams.get(timeout=3600))
        except (OSError, queue.Empty):
            pass


class Server(http.server.ThreadingHTTPServer):
    daemon_threads = True

    def __init__(self):
        super().__init__(("127.0.0.1", 0), Handler)
        self.streams, self.replies = queue.Queue(), queue.Queue()
        threading.Thread(target=self.serve_forever, daemon=True).start()

    def handle_error(self, *_):
        pass

    def ask(self, lines, seconds):
        """Returns the page's replies to lines, which are JSON texts."""
        self.streams.put(json.dumps(lines).encode())
        try:
            return json.loads(self.replies.get(timeout=seconds))
        except queue.Empty:
            raise Silent from None


def version_of(path):
    said = subprocess.run([path, "--version"], stdout=subprocess.PIPE, stderr=subprocess.DEVNULL, text=True, check=False).stdout
    return next((it for it in said.split() if it[0].isdigit()), "")


class Page:
    """A browser's page, with the interface of other players (judging.players)."""

    def __init__(self, browser, seconds):
        from judging.players import NotThere, Player

        self.browser, self.seconds = browser, seconds
        self.process = self.server = self.profile = self.path = None
        self.player = Player()
        self.version = ""
        if browser:
            self.path = next(filter(None, map(shutil.which, BROWSERS[browser][0])), None)
            if not self.path:
                raise NotThere(f"there is no {' or '.join(BROWSERS[browser][0])}")
            self.version = version_of(self.path)
        try:
            self.open()
        except Hung as fault:
            raise NotThere(fault.said) from None

    def open(self):
        self.server = Server()
        address = f"http://127.0.0.1:{self.server.server_port}/"
        if self.browser:
            self.profile = tempfile.mkdtemp(prefix="referee-")
            words = [it.format(profile=self.profile) for it in BROWSERS[self.browser][1]]
            settings = {"stdout": subprocess.DEVNULL, "stderr": subprocess.DEVNULL, "start_new_session": True}
            self.process = subprocess.Popen([self.path, *words, address], env={**os.environ, "HOME": self.profile}, **settings)
        else:
            print(f"open {address} in a browser of this machine", file=sys.stderr, flush=True)
        try:
            told = self.server.ask(['{"hello":{}}'], STARTS if self.browser else 3600)
        except Silent:
            self.end()
            raise Hung(f"{self.browser or 'no browser'} did not open the page within {STARTS} seconds") from None
        self.player.introduce({**told[0]["player"], "name": self.browser or "page", "version": self.version})

    name = property(lambda self: self.player.name)
    serves = property(lambda self: self.player.serves)
    itself = property(lambda self: self.player.itself)
    parts_at = property(lambda self: self.player.parts_at)
    documents, hanging, can_go_around, around, opened = True, Hanging(), (), (), None

    def replies(self, turns):
        if self.server is None:
            self.open()
        given = self.player.lines(turns)
        lines = [json.dumps(it) for _, it in given]
        try:
            told = self.server.ask(lines, self.seconds)
        except Silent:
            self.end()
            told = self.one_by_one(lines)
        found = [(at, reply) for (at, _), reply in zip(given, told)]
        if told and "fault" in told[-1]:
            found[-1] = self.player.fault_at(given, len(told) - 1, told[-1])
        return [it for it in found if it[0] is not None]

    def one_by_one(self, lines):
        """Plays a stream without replies anew in a new page, line by line, so that the line at which it ends is known. Returns the replies."""
        self.open()
        told = []
        for line in lines:
            try:
                told += self.server.ask([line], self.seconds)
            except Silent:
                gone = self.process is not None and self.process.poll() is not None
                self.end()
                return [*told, {"fault": "died" if gone else "hung", "said": f"the page gave no reply within {self.seconds:g} seconds"}]
        print(f"{self.name} gave no replies within {self.seconds:g} seconds, and did when the stream was played anew", file=sys.stderr, flush=True)
        return told

    def end(self):
        if self.process:
            try:
                os.killpg(self.process.pid, signal.SIGKILL)
            except ProcessLookupError:
                pass
            self.process.wait()
        if self.server:
            self.server.shutdown()
            self.server.server_close()
        if self.profile:
            shutil.rmtree(self.profile, ignore_errors=True)
        self.process = self.server = self.profile = None
