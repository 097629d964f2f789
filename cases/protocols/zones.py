"""ZIP: reading the zone tables of the router, and setting them."""

from patterns import NAME

REPORTS = {
    "served": "[01]",
    "zones": f"(?: {NAME}){{0,1024}}",
    "localzones": f"(?: {NAME}){{0,1024}}",
    "zonefault": "3[1-4]",
}
SENTENCES = {
    30: "the ZIP request has a code other than 8 and 9, or starts at name 0",
    31: "the page has fewer names than it counts",
    32: "a zone name is empty or over 32 bytes",
    33: "a page that is not the last has no names",
    34: "the table has more than 1,024 names",
}
PLACE = 1
COMES = {
    "call zones": ("begun", (14, 60, 63)),
    "call setzones": ("done", (32, 34, 60)),
    "call localzones": ("begun", (14, 60, 63)),
    "call setlocal": ("done", (32, 34, 60)),
}
HEARD = "begun zones localzones zonefault served"
FORGED = {6: (3, (0x40, 0x60, 0x80, 0x90, 0xC0))}

ZONES = ("Lab", "Office", "LAB", "%FF", "Z" * 32)


def read(_chance, _node):
    return ""


def table(chance, _):
    return " ".join(chance.random.choices((*ZONES, "%"), k=chance.one(0, 1, 3, 30)))


CALLS = {"zones": (4, read), "localzones": (3, read), "setzones": (1, table), "setlocal": (1, table)}
AT_ROUTER = ("setzones", "setlocal")
DRAWS = ("call zones", "call localzones")
