"""The zone that a node's user picks."""

from protocols.zones import ZONES

PLACE = 3
COMES = {"call pick": ("done", (61,))}


def pick(chance, _):
    return chance.one(*ZONES)


CALLS = {"pick": (2, pick)}
NEEDS = {"pick": "zones localzones"}
