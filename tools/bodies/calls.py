"""Which functions of a crate call which, by their names: a function that calls one that isn't proved is not tried, so the wrong
bodies of two such functions aren't tried together."""
import re
from functools import lru_cache

from sources import functions

CALL = re.compile(r"(\.|::)?\b(\w+)(?:::<[^()]*>)?\(")


def calls_in(text):
    """The names that a function's text calls, each with whether a method's call looks so."""
    return {(dot == ".", name) for dot, name in CALL.findall(text)}


@lru_cache(maxsize=None)
def callees(crate):
    """The functions of a crate, as owners and names, by the function whose text calls them."""
    texts = {}
    for file, text in crate.files().items():
        lines = text.split("\n") if file.startswith("src/") else []
        for it in functions(lines):
            texts.setdefault((it.owner, it.name), []).append("\n".join(lines[it.first : it.last + 1]))
    named = {}
    for owner, name in texts:
        named.setdefault((bool(owner), name), []).append((owner, name))
    found = {}
    for caller, bodies in texts.items():
        called = {it for body in bodies for it in calls_in(body)}
        # `Type::name(..)` is a method's call or a module's function.
        both = {(is_method, name) for dot, name in called for is_method in ({True} if dot else {True, False})}
        found[caller] = {it for key in both for it in named.get(key, ())} - {caller}
    return found


@lru_cache(maxsize=None)
def reached(crate, function):
    """All functions of a crate that a function, an owner and a name, calls in the end."""
    found, work = set(), [function]
    while work:
        more = callees(crate).get(work.pop(), set()) - found
        found |= more
        work += more
    return found


def are_apart(crate, some, others):
    """Whether none of some functions calls one of others in the end, nor the other way round."""
    down = {it for function in some for it in reached(crate, function)}
    up = {it for function in others for it in reached(crate, function)}
    return not down & {*others} and not up & {*some}
