"""How what runs can differ from what should run, and what life-configure does about it. tests/test_boot.py tests each
on a real machine, and tests/test_documents.py compares the names with the table of docs/OPERATING.md.
"""
from typing import NamedTuple

CERTIFICATE, KEY = "/srv/served.pem", "/srv/served.key"
# Commands for the shell: the status of a page of the site, and of a page of some other site.
PAGE = "curl -k -s -o /dev/null -w '%{http_code}' https://localhost/"
OTHER = "curl -s -o /dev/null -w '%{http_code}' -H 'host: drift.example' http://127.0.0.1/"
OWN = "location = /drift { return 204; }"
# Exchanges a file for a copy of itself, as dpkg does.
EXCHANGE = "exchange() { cp -p $1 $1.new; mv $1.new $1; }"
RUNS = "runs() { [ /proc/$(systemctl show -P MainPID $1)/exe -ef $2 ]; }"


class Drift(NamedTuple):
    """A change by an administrator or a package, in commands of root; what life-configure then prints, as a regular
    expression; commands that succeed if what runs is then what should run; and those that take the change back."""

    name: str
    change: str
    said: str
    runs: str
    undo: str = "true"


DRIFTS = (
    Drift(
        "a setting",
        "sed -i 's/^READS_LOGGED=.*/READS_LOGGED=3%/' /etc/life/settings",
        "^changed: life-site.conf\n",
        "grep -q ' 3%' /etc/nginx/sites-available/life; "
        "grep -q \"return 200 '$(curl -k -s https://localhost/.life-configured)'\" /etc/nginx/sites-available/life",
        "sed -i 's/^READS_LOGGED=.*/READS_LOGGED=2%/' /etc/life/settings",
    ),
    Drift(
        "the list of withdrawn deposits",
        "echo '2 drift' >> /etc/life/withdrawn",
        "^changed: life-site.conf\n",
        f"[ $({PAGE}deposits/2) = 410 ]",
        "sed -i '/^2 drift$/d' /etc/life/withdrawn",
    ),
    Drift(
        "your own lines",
        f"echo '{OWN}' > /etc/life/site.d/drift.conf",
        "systemctl reload nginx",
        f"[ $({PAGE}drift) = 204 ]",
        "rm /etc/life/site.d/drift.conf",
    ),
    Drift(
        "another site",
        "echo 'server { listen 80; server_name drift.example; return 204; }' > /etc/nginx/sites-enabled/drift",
        "systemctl reload nginx",
        f"[ $({OTHER}) = 204 ]",
        "rm /etc/nginx/sites-enabled/drift",
    ),
    Drift(
        "a certificate",
        f"cp /srv/second.pem {CERTIFICATE}; cp /srv/second.key {KEY}",
        "systemctl reload nginx",
        "curl -k -s -o /dev/null -w '%{certs}' https://localhost/ | grep -q CN.*second.example",
    ),
    Drift(
        "lines that only `nginx -s reload` read",
        f"echo '{OWN}' > /etc/life/site.d/drift.conf; nginx -s reload; "
        f"until [ $({PAGE}drift) = 204 ]; do sleep 0.1; done; "
        "rm /etc/life/site.d/drift.conf",
        "systemctl reload nginx",
        f"[ $({PAGE}drift) != 204 ]",
    ),
    Drift(
        "HAProxy's configuration",
        "echo '# by hand' >> /etc/life/haproxy.cfg; touch -d yesterday /etc/life/haproxy.cfg; "
        "pgrep -n haproxy > /run/drift",
        "systemctl reload-or-restart life-gateway",
        "[ $(pgrep -n haproxy) != $(cat /run/drift) ]",
        "life-configure --replace; rm /etc/life/haproxy.cfg.dpkg-*",
    ),
    Drift(
        "a mode or an owner",
        "chmod 600 /etc/life/haproxy.cfg; chown www-data /etc/nginx/sites-available/life",
        "^changed: life-site.conf, haproxy.cfg\n",
        '[ "$(stat -c %a:%U /etc/life/haproxy.cfg /etc/nginx/sites-available/life | sort -u)" = 644:root ]',
    ),
    Drift(
        "a unit",
        "mkdir -p /etc/systemd/system/life-index.service.d; "
        "printf '[Service]\\nNice=7\\n' > /etc/systemd/system/life-index.service.d/drift.conf",
        "systemctl daemon-reload",
        "[ $(systemctl show -P Nice life-index.service) = 7 ]",
        "rm -r /etc/systemd/system/life-index.service.d",
    ),
    Drift(
        "the archive's program",
        "exchange /usr/bin/life",
        "systemctl try-restart life.service",
        "runs life.service /usr/bin/life",
    ),
    Drift(
        "HAProxy's program",
        "exchange /usr/sbin/haproxy",
        r"systemctl try-restart life-gateway.service\n(?!systemctl reload)",
        "runs life-gateway.service /usr/sbin/haproxy",
    ),
    Drift(
        "a library of HAProxy",
        "exchange $(realpath /lib/x86_64-linux-gnu/libcrypt.so.1)",
        "systemctl try-restart life-gateway",
        "! grep -q 'libcrypt.*(deleted)' /proc/$(systemctl show -P MainPID life-gateway.service)/maps; "
        "systemctl restart nginx.service; life-configure > /dev/null",
    ),
    Drift(
        "nginx's program",
        "exchange /usr/sbin/nginx",
        "was replaced: systemctl restart nginx.service",
        "systemctl restart nginx.service; life-configure > /dev/null; runs nginx.service /usr/sbin/nginx",
    ),
)
