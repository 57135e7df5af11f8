"""What tools/make-tables writes: the places that repeat a refusal, a limit, a route, an address or the version."""
