"""What the parts of tests/test_web.py share: requests outside the pages, and an index of the archive.
"""
import http.client
import json
import os
import re
import subprocess
from typing import Any

from gateways import DEPLOY, Gateway, Reply, reply_on

WEB = os.path.join(DEPLOY, "..", "web")
# The name of a file of the pages that never changes.
DIGESTED = re.compile(r"[A-Za-z]+-[A-Z2-7]{8}\.[a-z]+")


def content(path: str) -> bytes:
    with open(path, "rb") as file:
        return file.read()


def with_sources(folder: str) -> str:
    """The setting by which a gateway also serves the files of web/ as they are, below /sources/: tests call what the
    modules export. The pages load none of them."""
    place = os.path.join(folder, "site")
    os.makedirs(place, exist_ok=True)
    with open(os.path.join(place, "sources.conf"), "w", encoding="ascii") as out:
        types = "text/javascript js; text/csv csv; image/svg+xml svg;"
        out.write(f"location ^~ /sources/ {{ alias {os.path.abspath(WEB)}/; types {{ {types} }} }}\n")
    return f"OWN_SITE={place}"


def bundled(gateway: Gateway, name: str) -> str:
    """The address of a file that the pages load, such as `main.js`, in which it has its digest."""
    stem, end = name.split(".")
    found = [one for one in os.listdir(os.path.join(gateway.folder, "pages")) if DIGESTED.fullmatch(one)]
    return next(f"/web/{one}" for one in found if one.startswith(f"{stem}-") and one.endswith(f".{end}"))


def asked(
    port: int, path: str, method: str = "GET", body: bytes | str | None = None, headers: dict[str, str] | None = None
) -> Reply:
    """The reply to a request outside the pages."""
    connection = http.client.HTTPConnection("127.0.0.1", port, timeout=60)
    return reply_on(connection, method, path, body, headers)


def told(gateway: Gateway, path: str) -> bytes:
    """The program's own reply, without the gateway."""
    return asked(gateway.life_port, path)[1]


def kept(gateway: Gateway, name: str, text: bytes, member: str = "ann") -> int:
    """Makes a deposit outside the pages, and returns its number, or 0 if it was refused."""
    status, answer, _ = asked(gateway.life_port, "/deposits", "POST", text, {"x-member": member, "x-token": name})
    return int(json.loads(answer)["deposit"]) if status == 201 else 0


def listed(gateway: Gateway) -> list[dict[str, Any]]:
    """All deposits, list by list, from the program."""
    found: list[dict[str, Any]] = []
    while rows := json.loads(told(gateway, f"/deposits/after/{found[-1]['id'] if found else 0}"))["deposits"]:
        found += rows
    return found


def index(gateway: Gateway, database: str) -> bool:
    """Builds the archive's index for the gateway, and returns whether that worked."""
    copy = os.path.join(gateway.folder, "copy.db")
    steps = [("life-copy", database, copy), ("life-index", copy, os.path.join(gateway.folder, "index"))]
    return all(
        subprocess.run([os.path.join(DEPLOY, name), *words], timeout=120, stdout=subprocess.DEVNULL).returncode == 0
        for name, *words in steps
    )
