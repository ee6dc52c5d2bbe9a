"""A small server for pages that are tested: files, results that pages post, and a mailbox by which they meet."""
import http.server
import threading
import urllib.parse
from pathlib import Path

TYPES = {".html": "text/html", ".js": "text/javascript", ".mjs": "text/javascript", ".wasm": "application/wasm"}
WAIT = 40


class Post:
    """Texts by name: who asks for one waits until it is there."""

    def __init__(self):
        self.texts, self.changed = {}, threading.Condition()

    def put(self, name, text):
        with self.changed:
            self.texts[name] = text
            self.changed.notify_all()

    def clear(self, *names):
        with self.changed:
            for name in names:
                self.texts.pop(name, None)

    def get(self, name, wait):
        with self.changed:
            self.changed.wait_for(lambda: name in self.texts, wait)
            return self.texts.get(name)


class Server:
    """Serves folders by their names before the path, on a free port of this machine."""

    def __init__(self, folders):
        self.post, self.folders = Post(), folders
        self.at = http.server.ThreadingHTTPServer(("127.0.0.1", 0), self.handler())
        self.at.daemon_threads = True
        self.url = f"http://127.0.0.1:{self.at.server_address[1]}"
        threading.Thread(target=self.at.serve_forever, daemon=True).start()

    def close(self):
        self.at.shutdown()
        self.at.server_close()

    def handler(self):
        post, folders = self.post, self.folders

        class Handler(http.server.BaseHTTPRequestHandler):
            def answer(self, status, body=b"", kind="text/plain"):
                self.send_response(status)
                self.send_header("Content-Type", kind)
                self.send_header("Content-Length", str(len(body)))
                self.end_headers()
                self.wfile.write(body)

            def do_GET(self):
                path = urllib.parse.urlparse(self.path).path
                _, first, rest = (path + "//").split("/", 2)
                rest = rest.strip("/")
                if first == "mail":
                    text = post.get(rest, WAIT)
                    self.answer(404 if text is None else 200, (text or "").encode())
                    return
                file = (folders[first] / rest).resolve() if first in folders else None
                if file is None or not file.is_relative_to(Path(folders[first]).resolve()) or not file.is_file():
                    self.answer(404)
                    return
                self.answer(200, file.read_bytes(), TYPES.get(file.suffix, "text/plain"))

            def do_POST(self):
                body = self.rfile.read(int(self.headers["Content-Length"])).decode()
                post.put(self.path.split("/", 2)[2], body)
                self.answer(204)

            def log_message(self, *words):
                pass

        return Handler
