"""Fills settings into templates, by Jinja2.

Each setting is a variable; TLS and HSTS are empty if they are `no`. DIGEST is the digest of the complete text.
"""
import hashlib
import math
import os
import re

import jinja2

from life_operate.settings import BadSetting
from life_operate.withdrawals import reasons_in

TEMPLATES = os.path.join(os.path.dirname(os.path.dirname(os.path.realpath(__file__))), "templates")
GATEWAY = os.path.join(TEMPLATES, "gateway")
DIGEST = "@DIGEST@"


def with_derived(settings: dict[str, str]) -> dict[str, str]:
    """The settings, and values derived from them: a second place on this machine, no HSTS without TLS, nginx's line
    for each proxy in front of it, the logs that Debian's logrotate file for nginx does not cover, the seconds after
    which a client may send its next census, and nginx's entries for the deposits that were withdrawn."""
    place, logs = settings["SECOND_PLACE"], {settings["WEB_LOG"], settings["WEB_ERRORS"]}
    censuses, unit = settings["CENSUSES"].split("r/")
    has_tls = settings["TLS"] == "yes"
    return settings | {
        "TLS": "yes" if has_tls else "",
        "SECOND_FOLDER": place if place.startswith("/") else "",
        "HSTS": settings["HSTS"] if has_tls and settings["HSTS"] != "no" else "",
        "FRONT_LINES": " ".join(f"set_real_ip_from {one};" for one in settings["FRONT_PROXIES"].split()),
        "CENSUS_WAIT": str(math.ceil((60 if unit == "m" else 1) / int(censuses))),
        "WITHDRAWN_ENTRIES": " ".join(f"{number} 1;" for number in sorted(reasons_in(settings["WITHDRAWN"]))),
        "OWN_LOGS": " ".join(sorted(log for log in logs if not re.fullmatch(r"/var/log/nginx/[^/]+\.log", log))),
        "DIGEST": DIGEST,
    }


def filled_templates(folder: str, settings: dict[str, str]) -> dict[str, str]:
    """The name of each template in a folder, and its text with the settings. A missing folder has no templates. If dpkg
    was killed while it unpacked a package, it has left files of its own there, or templates of another version."""
    jinja = jinja2.Environment(
        loader=jinja2.FileSystemLoader([folder, TEMPLATES]),
        undefined=jinja2.StrictUndefined,
        trim_blocks=True,
        lstrip_blocks=True,
        keep_trailing_newline=True,
    )
    files, values = {}, with_derived(settings)
    for name in sorted(os.listdir(folder)) if os.path.isdir(folder) else []:
        if os.path.isfile(os.path.join(folder, name)) and not name.endswith((".dpkg-new", ".dpkg-tmp")):
            try:
                text = jinja.get_template(name).render(values)
            except jinja2.TemplateError as fault:
                raise BadSetting(f"{name}: {fault}") from fault
            # Earlier releases wrote @TLS?@ at the beginning of a line for {% if TLS %}.
            if re.search(r"@[A-Z_]+[?!]@", text):
                raise BadSetting(f"{name} is a template of an earlier version")
            files[name] = text.replace(DIGEST, hashlib.sha256(text.encode()).hexdigest())
    return files
