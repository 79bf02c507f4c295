#!/usr/bin/env -S python3 -B
"""What `gmbench serve` answers, by Python's own http.server over benches/plain.py: what it is measured against.

    benches/plain_server.py --registry FILE --shelf DIR

Listens on a free port of 127.0.0.1, prints `listening on 127.0.0.1:PORT`, and answers GET /status and POST /commands, one
connection after the other, until it is killed. Images are synced by fdatasync, as gmbench does it. It tests as little as
plain.py does.
"""
import argparse
import http.server
import json
import os
import sqlite3

import plain

STATES = {0: "ACTIVE", 2: "SYNCHRONIZING", 6: "SYNCHRONIZING", 8: "INACTIVE"}


def status(store):
    """How the mirrors stand."""
    mirrors = []
    for name, total in store.execute("SELECT name, total FROM mirrors ORDER BY name").fetchall():
        found = store.execute("SELECT prov, dflags FROM components WHERE mirror = ? ORDER BY prov", (name,)).fetchall()
        components = [{"name": prov, "state": STATES[dflags]} for prov, dflags in found]
        active = sum(dflags == 0 for _, dflags in found)
        mirrors.append({"components": components, "name": name, "state": "COMPLETE" if active == total else "DEGRADED"})
    return 200, {"mirrors": mirrors}


def command(store, shelf, key, words):
    """What the command is answered."""
    told = plain.answer(store, shelf, key, words).split()
    number = int(told[2])
    if told[1] == "refused":
        return 409, {"answer": "refused", "number": number}
    return 200, {"answer": told[1], "seq": number}


class Handler(http.server.BaseHTTPRequestHandler):
    def tell(self, code, body):
        text = json.dumps(body, separators=(",", ":"), sort_keys=True).encode()
        self.send_response(code)
        self.send_header("Content-Type", "application/json")
        self.send_header("Content-Length", str(len(text)))
        self.send_header("Connection", "close")
        self.end_headers()
        self.wfile.write(text)

    def do_GET(self):
        self.tell(*(status(self.server.store) if self.path == "/status" else (404, {"error": "not found"})))

    def do_POST(self):
        body = json.loads(self.rfile.read(int(self.headers["Content-Length"])))
        self.tell(*command(self.server.store, self.server.shelf, body["key"], body["words"]))

    def log_message(self, *words):
        pass


def main():
    parser = argparse.ArgumentParser(description="What `gmbench serve` answers, in plain Python.")
    parser.add_argument("--registry", required=True)
    parser.add_argument("--shelf", required=True)
    words = parser.parse_args()
    server = http.server.HTTPServer(("127.0.0.1", 0), Handler)
    server.store = sqlite3.connect(words.registry, isolation_level=None)
    server.store.execute("PRAGMA journal_mode = WAL")
    server.store.execute("PRAGMA synchronous = FULL")
    server.store.executescript(plain.TABLES)
    server.shelf = plain.Shelf(words.shelf, os.fdatasync)
    print(f"listening on 127.0.0.1:{server.server_port}", flush=True)
    server.serve_forever()


if __name__ == "__main__":
    main()
