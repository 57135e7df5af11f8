"""The paths of the archive's routes that only read, from docs/routes.csv."""
from tables import limits, routes, texts

READING = [
    route for route in routes.read_routes(texts.read_file, limits.read_limits(texts.read_file)) if route.method == "GET"
]


def reading(cache: str = "", **values: object) -> list[str]:
    """A path of each of these routes, in the order of the table: of all, or of those whose replies the gateway caches
    so. The values are those of the parameters."""
    known = {name: str(value) for name, value in values.items()}
    return [routes.expression(route.path, known) for route in READING if cache in ("", route.cache)]
