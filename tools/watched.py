"""What ./watch does: looks whether files have changed, answers, and serves the page to browsers of this machine.

Only who knows the address gets the page: a random word stands in it, and a request that was meant for another host, as one of a foreign
page whose name was bent to this machine, is refused.
"""
import http.server
import os
import pathlib
import secrets
import sys
import threading
import time

import answers
import html_page
import refusals
import scripts

MANUAL = pathlib.Path(__file__).resolve().parent.parent / "docs/LANGUAGE.md"
# So many seconds pass between two looks at the files.
PACE = .3
# So many seconds a browser's question whether there is a newer page may wait.
HELD = 20
# What stands on the served page alone: it asks for a newer one, and shows it where the reader was.
RENEWING = """'use strict';
const number = document.querySelector('meta[name=number]').content;
const place = sessionStorage.getItem('place');
if (place) scrollTo(0, Number(place));
async function renewed() {
  try {
    if ((await (await fetch('newer?' + number)).text()) === 'yes') { sessionStorage.setItem('place', scrollY); location.reload(); return; }
    setTimeout(renewed, 50);
  } catch { setTimeout(renewed, 2000); }
}
renewed();
"""


def states(script):
    """What tells whether the script or a file that it copies is another one than before."""
    try:
        names = [os.fsdecode(it) for it in scripts.copied(pathlib.Path(script).read_bytes())]
    except OSError:
        names = []
    return [state(it) for it in (script, *names)]


def state(name):
    try:
        found = os.stat(name)
    except (OSError, ValueError):
        return name, None
    return name, found.st_mtime_ns, found.st_size, found.st_ino


def page_of(program, script, told):
    """The page of a run."""
    text = None
    if os.path.isfile(script):
        text = pathlib.Path(script).read_bytes()
        told.answers = answers.ask(program, text, told)
    return html_page.page(os.path.basename(script), text, told, refusals.sentences(MANUAL), RENEWING)


def watch(program, script, server):
    """Answers the script, and again whenever something changed."""
    known = None
    while True:
        found = states(script)
        if found == known:
            time.sleep(PACE)
            continue
        known = found
        told = answers.run(program, script)
        sys.stdout.buffer.write(told.written)
        sys.stdout.buffer.flush()
        sys.stderr.buffer.write(told.said)
        sys.stderr.flush()
        server.show(page_of(program, script, told))
        print(f"watch: status {told.status} at {time.strftime('%H:%M:%S')}", file=sys.stderr, flush=True)


class Server(http.server.ThreadingHTTPServer):
    """Serves the newest page under a random word."""

    daemon_threads = True

    def __init__(self, port):
        super().__init__(("127.0.0.1", port), Handler)
        self.word, self.number, self.page, self.changed = secrets.token_urlsafe(12), 0, "", threading.Condition()

    def address(self):
        return f"http://127.0.0.1:{self.server_port}/{self.word}/"

    def show(self, page):
        with self.changed:
            self.number += 1
            self.page = page.replace("<head>", f"<head>\n<meta name=number content={self.number}>", 1)
            self.changed.notify_all()

    def newest(self):
        """The page, once there is one."""
        with self.changed:
            self.changed.wait_for(lambda: self.page)
            return self.page

    def is_newer(self, number):
        """Whether there is a newer page than that of the number, for which it waits some time."""
        with self.changed:
            return self.changed.wait_for(lambda: str(self.number) != number, HELD)


class Handler(http.server.BaseHTTPRequestHandler):
    """Answers a browser."""

    def do_GET(self):
        path, _, number = self.path.partition("?")
        if self.headers["Host"] != f"127.0.0.1:{self.server.server_port}":
            self.tell(403, "text/plain", "this page is for 127.0.0.1 alone\n")
        elif path == f"/{self.server.word}/":
            self.tell(200, "text/html", self.server.newest())
        elif path == f"/{self.server.word}/newer":
            self.tell(200, "text/plain", "yes" if self.server.is_newer(number) else "no")
        else:
            self.tell(404, "text/plain", "there is no such page\n")

    def tell(self, status, kind, text):
        data = text.encode(errors="replace")
        try:
            self.send_response(status)
            for name, value in {"Content-Type": f"{kind}; charset=utf-8", "Content-Length": len(data), "Cache-Control": "no-store"}.items():
                self.send_header(name, str(value))
            self.end_headers()
            self.wfile.write(data)
        except OSError:
            # The browser has gone.
            pass

    def log_message(self, *_):
        pass
