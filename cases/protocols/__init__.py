"""What the language of schedules has of each protocol. A protocol is a file here, with those of these that it has:

SENTENCES       the sentence of each refusal that is the protocol's own, by its number
PLACE           where its calls stand in the sentence that lists all calls
REPORTS         the words after the first word of each report: their pattern
COMES           the reports of each kind of event, and its refusals
HEARD, REFUSED  the reports of a packet that comes, and its refusals
FORGED          of each socket the type of its datagrams, and bytes that its packets begin with
CALLS, TIMERS   how often each comes by chance, in parts, and a function that draws the words after it
NEEDS           reports of which a node has to have made one before, for an event to be sensible
AT_ROUTER       the calls that are the router's alone
DRAWS           the calls that draw a number
"""

import importlib
import pathlib

FILES = sorted(path.stem for path in pathlib.Path(__file__).parent.glob("[a-z]*.py"))
MODULES = [importlib.import_module(f"protocols.{name}") for name in FILES]


def each(name):
    """What each protocol has of this name, if it has one."""
    return [getattr(module, name) for module in MODULES if hasattr(module, name)]


def rows(name):
    """The rows that all protocols have of this name, in one."""
    return {key: row for found in each(name) for key, row in found.items()}


def words(name):
    """The words that all protocols have of this name."""
    return [word for found in each(name) for word in found]


def calls():
    """The words of all calls, in the order in which the sentence of a call at fault has them."""
    placed = sorted((module for module in MODULES if hasattr(module, "PLACE")), key=lambda module: module.PLACE)
    return [event.split(" ")[1] for module in placed for event in module.COMES if event.startswith("call ")]
