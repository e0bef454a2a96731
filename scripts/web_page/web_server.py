"""Serves folders to a browser on this machine, and takes answers of its pages."""

import contextlib
import functools
import http.server
import json
import os
import threading
import urllib.parse


class Handler(http.server.SimpleHTTPRequestHandler):
    """Answers for the folder of the longest prefix of a path. Pages may share memory with their workers."""
    extensions_map = {"": "application/octet-stream", ".html": "text/html", ".js": "text/javascript",
                      ".wasm": "application/wasm"}

    def __init__(self, folders, answers, *words):
        self.folders, self.answers = folders, answers
        super().__init__(*words)

    def do_POST(self):
        """Takes an answer, in JSON."""
        self.answers.put(json.loads(self.rfile.read(int(self.headers["Content-Length"]))))
        self.send_response(204)
        self.end_headers()

    def translate_path(self, path):
        path = os.path.normpath(urllib.parse.unquote(urllib.parse.urlsplit(path).path))
        prefix = max((it for it in self.folders if path.startswith(it)), key=len)
        found = os.path.join(self.folders[prefix], path[len(prefix):].lstrip("/"))
        return os.path.join(found, "index.html") if os.path.isdir(found) else found

    def end_headers(self):
        for name, value in (("Cross-Origin-Opener-Policy", "same-origin"),
                            ("Cross-Origin-Embedder-Policy", "require-corp"), ("Cache-Control", "no-store")):
            self.send_header(name, value)
        super().end_headers()

    def copyfile(self, *files):
        """Sends a file, unless the browser wants no more of it."""
        with contextlib.suppress(ConnectionError):
            super().copyfile(*files)

    def log_message(self, *_):
        pass


@contextlib.contextmanager
def serving(folders, port=0, answers=None):
    """Serves folders by the prefixes of paths, and gives the address. What pages post comes into a queue."""
    handler = functools.partial(Handler, folders, answers)
    with http.server.ThreadingHTTPServer(("127.0.0.1", port), handler) as server:
        threading.Thread(target=server.serve_forever, daemon=True).start()
        try:
            yield f"http://127.0.0.1:{server.server_address[1]}/"
        finally:
            server.shutdown()
