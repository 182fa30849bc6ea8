"""nginx as a proxy in front of a server of ours, in one process that is ended by its process id."""

import os
import shutil
import subprocess
import time

from lib.running import lay
from lib.serving import LIMIT, PATIENCE, connected, dies_with_us, free_ports

NGINX = shutil.which("nginx") or shutil.which("nginx", path="/usr/sbin")
PROXY = """daemon off; master_process off; pid %(folder)s/pid; error_log stderr error;
events { worker_connections 256; }
http {
  access_log off;
  client_body_temp_path %(folder)s/a; proxy_temp_path %(folder)s/b; fastcgi_temp_path %(folder)s/c; uwsgi_temp_path %(folder)s/d; scgi_temp_path %(folder)s/e;
  upstream cavundel { server 127.0.0.1:%(there)d; keepalive 4; keepalive_timeout %(kept)ds; }
  server {
    listen 127.0.0.1:%(here)d;
    client_max_body_size 2m;
    location / { proxy_pass http://cavundel; proxy_http_version 1.1; proxy_set_header Connection ""; }
  }
}
"""


class Proxy:
    """nginx in front of a port, with kept connections behind it."""

    def __init__(self, folder, there):
        self.here = free_ports(1)[0]
        lay(folder, {"proxy.conf": (PROXY % {"folder": folder, "here": self.here, "there": there, "kept": max(1, PATIENCE - 1)}).encode()})
        self.child = subprocess.Popen([NGINX, "-p", folder, "-c", os.path.join(folder, "proxy.conf")], stdin=subprocess.DEVNULL, stdout=subprocess.DEVNULL, stderr=subprocess.DEVNULL, preexec_fn=dies_with_us)

    def __enter__(self):
        last = time.monotonic() + LIMIT
        while time.monotonic() < last and self.child.poll() is None:
            try:
                connected(self.here).close()
                return self
            except ConnectionRefusedError:
                time.sleep(0.02)
        self.__exit__()
        raise RuntimeError("nginx does not listen")

    def __exit__(self, *_):
        self.child.terminate()
        try:
            self.child.wait(LIMIT)
        except subprocess.TimeoutExpired:
            self.child.kill()
            self.child.wait(LIMIT)
