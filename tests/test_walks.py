"""Walks of an administrator over a club, on the stand-in for systemd: what walks.py promises after each of some hundred
steps. The environment's WALKS and STEPS make them more and longer, as before a release: WALKS=10 STEPS=1000.
"""
import os

import pytest

from clients import check
from walks import WEIGHT_OF, drawn, fault_of, shortened

pytestmark = [pytest.mark.full, pytest.mark.usefixtures("program")]

WALKS, STEPS = int(os.environ.get("WALKS", "2")), int(os.environ.get("STEPS", "100"))
# How many shorter walks are tried if one breaks a promise.
TRIES = 12


@pytest.mark.parametrize("seed", range(1, WALKS + 1))
def test_walk(folder: str, seed: int) -> None:
    steps = drawn(seed, STEPS, WEIGHT_OF)
    fault = fault_of(folder, f"walk-{seed}", steps)
    if fault:
        number, why = fault
        steps = shortened(folder, steps[: number + 1], TRIES)
        why = f"{why}\n" + "\n".join(f"  {step.name} ({step.seed})" for step in steps)
    check(f"a walk of {STEPS} steps by seed {seed}{f': {why}' if fault else ''}", not fault)
