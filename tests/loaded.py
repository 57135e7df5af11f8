"""An nginx that tests/test_health.py has life-configure load, with a stand-in for systemctl."""
import http.client
import os
import shutil
import signal
import ssl
import subprocess
import sys

import clients
from clients import HERE

DEPLOY = os.path.join(HERE, "..", "deploy")
# Loads the files of a folder, in which systemctl and nginx are stand-ins.
LOADING = """
import sys
sys.path.insert(0, sys.argv[1])
from life_operate import loading
from life_operate.settings import BadSetting

folder, port = sys.argv[2:4]
loading.ENABLED_SITE = site = f"{folder}/nginx.conf"
loading.READ = {loading.NGINX: f"{folder}/nginx.read", loading.GATEWAY: f"{folder}/haproxy.read"}
loading.HAPROXY, loading.TAKEN_WITHIN = f"{folder}/haproxy.cfg", 3
try:
    loading.load(sys.argv[4:], {"LISTEN": f"127.0.0.1:{port}", "HOST": "", "TLS": "no"}, site)
except BadSetting as fault:
    sys.exit(str(fault))
"""
LOADED_SYSTEMCTL = """#!/bin/sh
cd "$(dirname "$0")/.."
case $* in
  *=ActiveState*life-gateway*) cat haproxy.state ;;
  *=ActiveState*) echo active ;;
  *=MainPID*) cat pid ;;
  *=ExecStart*nginx*) cat start ;;
  "reload nginx.service") exec bin/nginx -s reload ;;
esac
"""
LOADED_NGINX = """{user}
pid {folder}/pid;
worker_rlimit_nofile {files};
events {{ worker_connections {connections}; }}
http {{
    access_log off;
    client_body_temp_path {folder}/temporary; proxy_temp_path {folder}/temporary; fastcgi_temp_path {folder}/temporary;
    uwsgi_temp_path {folder}/temporary; scgi_temp_path {folder}/temporary;
    server {{
        listen 127.0.0.1:{port};
        listen 127.0.0.1:{secure} ssl;
        ssl_certificate {folder}/cert.pem;
        ssl_certificate_key {folder}/key.pem;
        root {folder}/pages;
        location = /.life-configured {{
            return 200 '{digest}';
        }}
        include {folder}/site.d/*.conf;
    }}
}}
"""
AGAIN = "nginx has to read its files again\nsystemctl reload nginx.service\n"


def content(path: str) -> str:
    if not os.path.exists(path):
        return ""
    with open(path, encoding="utf-8", errors="replace") as file:
        return file.read()


def write(path: str, text: str, mode: int = 0o644) -> None:
    os.makedirs(os.path.dirname(path), exist_ok=True)
    with open(path, "w", encoding="utf-8") as file:
        file.write(text)
    os.chmod(path, mode)


class Loaded:
    """nginx itself, a stand-in for systemctl, and the club's own lines."""

    def __init__(self, folder: str) -> None:
        self.folder, self.port, self.secure = folder, clients.free_port(), clients.free_port()
        nginx = shutil.which("nginx", path=os.environ["PATH"] + ":/usr/sbin")
        write(os.path.join(folder, "bin", "systemctl"), LOADED_SYSTEMCTL, 0o755)
        line = f'exec {nginx} -e {folder}/error.log -c {folder}/nginx.conf "$@"'
        write(os.path.join(folder, "bin", "nginx"), f"#!/bin/sh\n{line}\n", 0o755)
        self.write_nginx(8192, 20000)
        write(os.path.join(folder, "pages", "index.html"), "a page")
        for name in ("haproxy.cfg", "start"):
            write(os.path.join(folder, name), "")
        write(os.path.join(folder, "haproxy.state"), "inactive")
        self.certify()
        subprocess.run([os.path.join(folder, "bin", "nginx")], check=True, timeout=30)

    def write_nginx(self, connections: int, files: int) -> None:
        values = {"folder": self.folder, "port": self.port, "secure": self.secure, "digest": "0" * 64}
        values |= {"connections": connections, "files": files, "user": "user root;" if os.geteuid() == 0 else ""}
        write(os.path.join(self.folder, "nginx.conf"), LOADED_NGINX.format(**values))

    def certify(self) -> None:
        clients.certify(os.path.join(self.folder, "cert.pem"), os.path.join(self.folder, "key.pem"))

    def own_line(self, text: str) -> None:
        write(os.path.join(self.folder, "site.d", "own.conf"), text)

    def load(self, *changed: str) -> tuple[int, str, str]:
        """What life-configure says if it has changed these units."""
        path = f"{self.folder}/bin:{os.environ['PATH']}"
        done = subprocess.run(
            [sys.executable, "-c", LOADING, DEPLOY, self.folder, str(self.port), *changed],
            capture_output=True,
            text=True,
            timeout=60,
            env=os.environ | {"PATH": path},
            check=False,
        )
        return done.returncode, done.stdout, done.stderr

    def asked(self, address: str) -> int:
        """The status of the page for a client with this address."""
        connection = http.client.HTTPConnection("127.0.0.1", self.port, timeout=30, source_address=(address, 0))
        try:
            connection.request("GET", "/")
            return connection.getresponse().status
        finally:
            connection.close()

    def certificate(self) -> str:
        """The certificate that is given out."""
        return ssl.get_server_certificate(("127.0.0.1", self.secure))

    def end(self) -> None:
        # `nginx -s stop` would first read what was broken.
        os.kill(int(content(os.path.join(self.folder, "pid"))), signal.SIGTERM)
