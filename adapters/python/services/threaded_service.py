"""A web service with threads, as gunicorn's way is: threaded_service.py URL PORT. `POST /send/KEY` publishes its body, and answers 200 once the
broker answers for it.

All threads of the pool share one connection and one channel (`threads=True`): it is opened at the first request, behind the fork of a server that
forks, and again where it was lost. Its own thread sends heartbeats, so that it may be without a request for long.
"""
import sys
import threading
from concurrent.futures import ThreadPoolExecutor
from http.server import BaseHTTPRequestHandler, HTTPServer

import lapin

LOCK = threading.Lock()
URL, PORT = sys.argv[1], int(sys.argv[2])
CHANNEL = None


def channel():
    """The channel with confirms that all threads share."""
    global CHANNEL
    with LOCK:
        if CHANNEL is None or not CHANNEL.is_open:
            if CHANNEL is not None:
                CHANNEL.connection.close()
            connection = lapin.connect(URL, threads=True, connection_name="threaded_service")
            CHANNEL = connection.channel(confirms=True)
            CHANNEL.queue_declare("services", durable=True)
        return CHANNEL


def sent(key, body):
    """Whether a queue has the message; once more where the connection was lost, under the same message_id."""
    for _ in range(2):
        try:
            return bool(channel().publish("", "services", body, mandatory=True, delivery_mode=2, message_id=key).wait(10))
        except (lapin.Error, OSError):
            pass
    return False


class Handler(BaseHTTPRequestHandler):
    def do_POST(self):
        body = self.rfile.read(int(self.headers.get("Content-Length", 0)))
        is_sent = sent(self.path[6:], body) if self.path.startswith("/send/") else None
        self.send_response(404 if is_sent is None else 200 if is_sent else 503)
        self.send_header("Content-Length", "0")
        self.end_headers()

    def log_message(self, *_):
        """Nothing is said of a request."""


class Pooled(HTTPServer):
    """A server whose requests are worked on by a pool of threads."""
    request_queue_size = 64
    pool = ThreadPoolExecutor(4)

    def process_request(self, request, client_address):
        self.pool.submit(self.worked_on, request, client_address)

    def worked_on(self, request, client_address):
        try:
            self.finish_request(request, client_address)
        finally:
            self.shutdown_request(request)


with Pooled(("127.0.0.1", PORT), Handler) as server:
    print("ready", server.server_address[1], flush=True)
    threading.Thread(target=server.serve_forever, daemon=True).start()
    sys.stdin.read()
    server.shutdown()
