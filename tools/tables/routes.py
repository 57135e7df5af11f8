"""docs/routes.csv and docs/addresses.csv: what documents and the gateway say about the routes of the program, and the
addresses of the web pages.

The gateway in front knows both as regular expressions.
"""
from __future__ import annotations

import re
from typing import Callable, Dict, Iterator, List, NamedTuple, Optional

from .limits import Limits
from .program import PATH as PROGRAM
from .program import Program
from .texts import Fault, Read, markdown, rows_of

ROUTES, ADDRESSES = "docs/routes.csv", "docs/addresses.csv"
# `cache` says how long the gateway caches a reply: a `fixed` one never changes, a `moving` one may grow. `cost` says
# how long a reply may take: a `slow` one up to a minute, a `quick` one milliseconds.
ROUTE_COLUMNS = ["method", "path", "request", "reply", "cache", "cost"]
# An address may lack what is in brackets. `title` is what a preview of a link says: with brackets for both forms of the
# address, without them for the short one.
ADDRESS_COLUMNS = ["name", "path", "title"]
# A path of each route, to ask which location of the gateway has it.
EXAMPLES = {"id": "7", "n": "8", "limit": "9", "rule": "B3S23", "code": "xq4_153"}
SITE, PROXY = "deploy/templates/gateway/life-site.conf", "deploy/templates/gateway/haproxy.cfg"
NUMBER, PART, DIGITS = "[0-9]{1,15}", "[^/]+", "[0-9]+"
# What a parameter of a route may be in the gateway. A reply that never changes is cached only under the number of a
# deposit or a census without leading zeros.
IN_ROUTES = {"id": DIGITS, "n": DIGITS, "limit": DIGITS, "rule": PART, "code": "[0-9a-z_]+"}
IN_FIXED = {**IN_ROUTES, "id": "[1-9][0-9]*"}
# The classes of routes that only read: each has a location of the site.
CLASSES = [("fixed", "quick"), ("moving", "quick"), ("fixed", "slow"), ("moving", "slow")]
# A limit above 256, with zeros before it.
LONG = "0*(25[7-9]|2[6-9][0-9]|[3-9][0-9][0-9]|[1-9][0-9]{3,})"
# A title is put into HTML, so it has no character that HTML would read.
IN_TITLES = {"code": "[a-z0-9_]+"}
# The page whose files web/ahead.js asks for.
AHEAD = "deposit"

# The regular expression of a parameter, by the parameter's name.
Patterns = Dict[str, str]


class Route(NamedTuple):
    method: str
    path: str
    request: str
    reply: str
    cache: str
    cost: str


class Address(NamedTuple):
    name: str
    path: str
    title: str


def read_routes(read: Read, limits: Limits) -> List[Route]:
    routes = []
    for row in rows_of(read, ROUTES, ROUTE_COLUMNS):
        kept = ("fixed", "moving") if row["method"] == "GET" else ("",)
        if row["method"] not in ("GET", "POST") or row["cache"] not in kept or row["cost"] not in ("quick", "slow"):
            raise Fault(f"{ROUTES}: {row['path']}: GET with fixed or moving, or POST; and quick or slow")
        request, reply = limits.put_into(row["request"]), limits.put_into(row["reply"])
        routes.append(Route(row["method"], row["path"], request, reply, row["cache"], row["cost"]))
    return routes


def read_addresses(read: Read) -> List[Address]:
    return [Address(row["name"], row["path"], row["title"]) for row in rows_of(read, ADDRESSES, ADDRESS_COLUMNS)]


def location_of(site: str, path: str) -> str:
    """The location that nginx chooses for a path: an exact one, or else the first match."""
    locations = re.findall(r"(?ms)^ {4}location (=|~) (\S+) \{$(.*?)^ {4}\}$", site)
    # Python writes named groups differently.
    forms = [(re.sub(r"\(\?<(\w)", r"(?P<\1", form), body) for kind, form, body in locations if kind == "~"]
    fitting: List[str] = [body for kind, form, body in locations if kind == "=" and form == path]
    fitting += [body for form, body in forms if re.search(form, path)]
    return fitting[0] if fitting else ""


def compare(routes: List[Route], program: Program, read: Read) -> Iterator[Optional[str]]:
    """For each route, the problem if the program does not have it, or if the gateway caches its replies in another way
    than the table says, or has other limits for it; and the problem of a route that the table does not have."""
    listed = [(route.method, route.path) for route in routes]
    for one in sorted({*listed, *program.routes}):
        known = one in program.routes and listed.count(one) == 1
        yield None if known else f"{ROUTES}: {' '.join(one)} is not once there and in {PROGRAM}"
    for route in routes:
        location = location_of(read(SITE), expression(route.path, EXAMPLES))
        page = re.search(r"set \$life_page (\w+);", location)
        found = page[1] if page else ""
        kept = f"{SITE}: replies of {route.path} are kept as '{found}', and as '{route.cache}' in {ROUTES}"
        yield None if found == route.cache else kept
        cost = "slow" if re.search(r"life_client_slow_at_once|\{\{ slow \}\}", location) else "quick"
        limited = f"{SITE}: {route.path} has the limits of {cost} routes, and is {route.cost} in {ROUTES}"
        yield None if cost == route.cost else limited


def in_addresses(limits: Limits) -> Patterns:
    """What a parameter of an address may be."""
    member = f"[a-z0-9-]{{1,{limits.named('LONGEST_MEMBER').value}}}"
    return {"number": NUMBER, "at": NUMBER, "member": member, "rule": PART, "code": PART, "list": ".+"}


def expression(path: str, patterns: Patterns, form: Callable[[str, str], str] = lambda name, pattern: pattern) -> str:
    """A regular expression for a path. `form` makes that of a parameter from its name and its pattern."""

    def parameter(found: re.Match[str]) -> str:
        if found[1] not in patterns:
            raise Fault(f"tools/tables/routes.py does not say what {{{found[1]}}} may be in {path}")
        return form(found[1], patterns[found[1]])

    return re.sub(r"\{(\w+)\}", parameter, path.replace("[", "(?:").replace("]", ")?"))


# ---- documents


def table(routes: List[Route]) -> List[str]:
    """The table of API."""
    return markdown(
        "Method and path | Request | Reply",
        [f"`{route.method} {route.path}` | {route.request} | {route.reply}" for route in routes],
    )


# ---- the web pages


def in_script(address: Address, limits: Limits) -> str:
    """The expression of an address in a script. Each parameter is a group. Within [^/] the slash needs no escape."""
    path = address.path.replace("/", r"\/")
    return "/^" + expression(path, in_addresses(limits), lambda _, pattern: f"({pattern})") + "$/i"


def script_addresses(addresses: List[Address], limits: Limits) -> List[str]:
    """The object of main.js that has each address by its name."""
    return ["const ADDRESSES = {", *(f"  {one.name}: {in_script(one, limits)}," for one in addresses), "};"]


def script_ahead(addresses: List[Address], limits: Limits) -> List[str]:
    """The constant of ahead.js."""
    return [f"  const ADDRESS = {in_script(one, limits)};" for one in addresses if one.name == AHEAD]


# ---- the gateway


def reading(routes: List[Route], cost: str) -> List[Route]:
    """The routes of a cost that only read."""
    return [route for route in routes if route.method == "GET" and route.cost == cost]


def site_location(routes: List[Route], cache: str, cost: str) -> List[str]:
    """The first line of the location of a class of routes."""
    patterns = IN_FIXED if cache == "fixed" else IN_ROUTES
    paths = [expression(route.path[1:], patterns) for route in reading(routes, cost) if route.cache == cache]
    if not paths:
        raise Fault(f"{ROUTES}: no route is {cache} and {cost}, so {SITE} needs no location for such")
    return [f"    location ~ ^/({'|'.join(paths)})$ {{"]


def site_realm(routes: List[Route]) -> List[str]:
    """The map that has the routes on which a long search needs a password. They end in the limit."""
    known = reading(routes, "slow")
    paths = [re.sub(r"/\{limit\}$", "", route.path[1:]) for route in known if route.path.endswith("/{limit}")]
    forms = "|".join(expression(path, {**IN_ROUTES, "code": PART}) for path in paths)
    return [f'map $life_path $life_realm {{ default off; "~^/({forms})/{LONG}$" club; }}']


def proxy_slow(routes: List[Route]) -> List[str]:
    """How HAProxy tells the slow routes that only read: by a part of their path or, if no quick route begins so, by its
    beginning."""
    quick = [expression(route.path, EXAMPLES) for route in routes if route.cost == "quick"]
    inside, begins = [], []
    for route in reading(routes, "slow"):
        begin = "/".join(route.path.split("/")[:2]) + "/"
        if not any(path.startswith(begin) for path in quick):
            begins.append(begin)
            continue
        inside.append(re.split(r"\{\w+\}", route.path)[1])
        if any(inside[-1] in path for path in quick):
            raise Fault(f"{ROUTES}: '{inside[-1]}' does not tell {route.path} from a quick route")
    words = [("path_sub", inside), ("path_beg", begins)]
    return [f"    acl is_read_slow {word} {' '.join(dict.fromkeys(parts))}" for word, parts in words if parts]


def site_pages(addresses: List[Address], limits: Limits) -> List[str]:
    """The location of the pages. One page is at all their addresses, with a slash at the end too."""
    paths = [expression(one.path[1:], in_addresses(limits)) for one in addresses if one.path != "/"]
    return [f'    location ~* "^/({"|".join(paths)})?/?$" {{']


def site_titles(addresses: List[Address], limits: Limits) -> List[str]:
    """The map of titles. A parameter that the title names is a variable of nginx."""
    patterns = {**in_addresses(limits), **IN_TITLES}
    lines = ["map $life_path $life_title {", '    default "";']
    for one in addresses:
        short = re.sub(r"\[.*\]", "", one.path), re.sub(r"\[.*\]", "", one.title)
        long = re.sub(r"[\[\]]", "", one.path), re.sub(r"[\[\]]", "", one.title)
        for path, title in [short, long] if "[" in one.title else [short] if one.title else []:

            def form(name: str, pattern: str, title: str = title) -> str:
                return f"(?<life_in_{name}>{pattern})" if f"{{{name}}}" in title else pattern

            variables = re.sub(r"\{(\w+)\}", r"$life_in_\1", title)
            lines.append(f'    "~*^{expression(path, patterns, form)}/*$" "{variables} · ";')
    return [*lines, "}"]


def site_files(addresses: List[Address], limits: Limits) -> List[str]:
    """The maps that have, for a deposit's address with `.rle` after it, the route of its text without leading zeros,
    and the name under which that is saved."""

    def form(name: str, pattern: str) -> str:
        return f"0*(?<life_file_{name}>{pattern})"

    found = []
    for one in [one for one in addresses if one.name == AHEAD]:
        for path in (re.sub(r"\[.*\]", "", one.path), re.sub(r"[\[\]]", "", one.path)):
            variables = re.sub(r"\{(\w+)\}", r"$life_file_\1", path)
            request = f'"~*^{expression(path, in_addresses(limits), form)}\\.rle(?:\\?|$)"'
            found.append((request, variables.replace("/d/", "/deposits/"), variables.replace("/d/", "")))
    return [
        "map $request_uri $life_path {",
        *(f"    {request} {route};" for request, route, _ in found),
        '    "~^(?<life_bytes>[^?]*)" $life_bytes;',
        "}",
        "map $request_uri $life_saved {",
        '    default "";',
        *(
            f"""    {request} 'attachment; filename="deposit-{file.replace("/", "-")}.rle"';"""
            for request, _, file in found
        ),
        "}",
    ]


def site_file(addresses: List[Address], limits: Limits) -> List[str]:
    """The first line of the location of these files."""
    paths = [expression(one.path, in_addresses(limits)) for one in addresses if one.name == AHEAD]
    return [f'    location ~* "^(?:{"|".join(paths)})\\.rle$" {{']


def site_deposit(addresses: List[Address], limits: Limits) -> List[str]:
    """The map that has the number of the deposit which an address names, without leading zeros."""

    def form(name: str, pattern: str) -> str:
        return f"0*(?<life_in_deposit>{pattern})" if name == "number" else pattern

    paths = [expression(one.path, in_addresses(limits), form) for one in addresses if one.name == AHEAD]
    lines = [f'    "~*^{path}/*$" $life_in_deposit;' for path in paths]
    return ["map $life_path $life_deposit {", '    default "";', *lines, "}"]
