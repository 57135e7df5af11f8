"""The commands of a club's administrator: copies, restores, settings and the search index. The commands next to
this folder call it."""
