"""What limits.py, carts.py and devices.py share: HTTP on this machine, a thread for each connection, and the way to the silo."""

from __future__ import annotations

import http.server
import json
import threading
import urllib.parse
from typing import Any, List, Tuple

from silo import Client, Silo, SiloEnded, SiloError, SiloTimeout

# bytes of a body
MOST_BYTES = 32_768
NOT_KNOWN = "this may or may not be done"
# what a service answers: a status and a value, which is written as JSON
Answer = Tuple[int, Any]


class Service:
    """A service over one silo. It is connected anew if the gateway has ended."""

    def __init__(self, gateway: str, caller: str) -> None:
        self._gateway, self._caller = gateway, caller
        self._changing = threading.Lock()
        self._silo = Silo.connect(gateway, timeout=10)

    def answer(self, web: Client, method: str, path: List[str], body: bytes) -> Answer:
        """What a request is answered; a ValueError if it can't be one."""
        raise NotImplementedError

    def answered(self, method: str, path: List[str], body: bytes) -> Answer:
        """The same, whatever becomes of it. Nothing is asked twice: only the caller knows whether that does harm."""
        silo = self._silo
        try:
            return self.answer(silo.client(self._caller), method, path, body)
        except ValueError as fault:
            return 400, {"error": str(fault)}
        except SiloError as fault:
            # 41: there is no room for one more grain; 90: the silo ended
            return 503, {"error": NOT_KNOWN if fault.code == 90 else str(fault)}
        except SiloTimeout:
            return 504, {"error": NOT_KNOWN}
        except SiloEnded as ended:
            self._connect_instead_of(silo)
            return 503, {"error": NOT_KNOWN if ended.under_way else "nothing was done"}

    def _connect_instead_of(self, silo: Silo) -> None:
        with self._changing:
            if self._silo is silo:
                try:
                    self._silo = Silo.connect(self._gateway, timeout=10)
                except OSError:
                    # nobody listens yet: the next request tries again
                    return
                silo.close()


def serve(service: Service, port: int) -> None:
    """Answers until it is interrupted; port 0 is any that is free."""

    class Handler(http.server.BaseHTTPRequestHandler):
        protocol_version = "HTTP/1.1"
        # head and body go out together
        wbufsize = 65_536

        def do_GET(self) -> None:
            path = [urllib.parse.unquote(part) for part in self.path.split("/")[1:]]
            length = self.headers.get("Content-Length") or "0"
            if not length.isdecimal() or int(length) > MOST_BYTES:
                self.close_connection = True
                self._tell(413, {"error": "the body is too long"})
                return
            self._tell(*service.answered(self.command, path, self.rfile.read(int(length))))

        do_PUT = do_POST = do_DELETE = do_GET

        def _tell(self, status: int, value: Any) -> None:
            data = json.dumps(value).encode() + b"\n"
            self.send_response(status)
            self.send_header("Content-Type", "application/json")
            self.send_header("Content-Length", str(len(data)))
            self.end_headers()
            self.wfile.write(data)

        def log_request(self, *said: Any) -> None:
            pass

    class Server(http.server.ThreadingHTTPServer):
        # connections that wait until they are let in
        request_queue_size = 128

    with Server(("127.0.0.1", port), Handler) as server:
        print(f"listens at port {server.server_address[1]}", flush=True)
        try:
            server.serve_forever()
        except KeyboardInterrupt:
            pass
