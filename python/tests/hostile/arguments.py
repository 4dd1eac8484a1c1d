#!/usr/bin/env python3
"""Calls every name of every ready-made list with whatever a pickle can make for an argument, in
every way, and puts the same at each place of an honest pickle that has the name. Nothing runs,
opens, imports, dies, changes what was there before, or takes much time or memory.

    PYTHONPATH=python python3 python/tests/hostile/arguments.py [LIST ..] [--name MODULE.NAME]
"""

import argparse
import sys
from pathlib import Path

sys.path[:0] = [str(Path(__file__).resolve().parent)]

import honest  # noqa: E402
import trees  # noqa: E402
from children import SECONDS, Children, begin, is_here  # noqa: E402
from mutating import SLOW  # noqa: E402
from storklocker import Guard, lists  # noqa: E402
from storklocker.judge import shapes  # noqa: E402
from storklocker.judge.forms import forms  # noqa: E402
from widening import of_here, widened  # noqa: E402

MOST, PLACES = 4, 60
"""How many findings of a name are told, and how many places of an honest pickle are tried: of more
these are spread over all.
"""
FEW = ("called with 1", "called behind 1", "made", "items put", "built")
"""The ways for a value that takes long to judge."""
EVERY = 50
"""After how many pickles what was there before is looked at."""


def cases(pair, users):
    """The name of each case, and its pickle, given what uses names in honest pickles."""
    called = shapes.name(*pair)
    yield "called with nothing", b"\x80\x04" + called + b")R."
    yield "made of nothing", b"\x80\x04" + called + b")\x81."
    for word, data in shapes.kinds().items():
        for form, body in forms(called, data):
            if len(data) < SLOW or form in FEW:
                yield f"{form}: {word}", b"\x80\x04" + body
    root, node = users.get(trees.import_of(*pair), (None, None))
    places = [] if node is None else own_places(node)
    shared = trees.shared(root) if places else ()
    for at, place in enumerate(places[:: 1 + len(places) // PLACES]):
        before, after = trees.around(root, shared, place)
        for word, data in shapes.kinds().items():
            yield f"at place {at}: {word}", before + data + after


def users_of_names(held):
    """Of trees, by the instruction of each name: the smallest tree with a call of it, or else with
    a call that is given it, or with it alone; and the node that calls it, or is it.
    """
    found = {}
    for root in held:
        rows = [node for node, _ in trees.nodes(root)]
        for node in rows:
            for rank, names in enumerate(_names_of(node)):
                for it in names:
                    key = rank, len(rows)
                    if it.kind == trees.NAME and (it.data not in found or key < found[it.data][0]):
                        found[it.data] = key, (root, node)
    return {spelled: user for spelled, (_, user) in found.items()}


def _names_of(node):
    """What a node calls, what it is called with, and what it is."""
    if node.kind not in trees.CALLS:
        return (), (), (node,)
    called, *given = node.parts
    return (called,), [it for part in given for it in (part, *part.parts)], ()


def own_places(node):
    """The nodes that a call has for arguments, states and items, also within containers, but not
    those of the calls among them, which are tried by the names of these.
    """
    found, left = {}, [node]
    while left:
        it = left.pop()
        if id(it) not in found and (it is node or it.kind not in trees.CALLS):
            left += [*it.parts, *(part for _, given in it.acts for part in given)]
        found[id(it)] = it
    places = list(found.values())
    return places[1:] if node.kind in trees.CALLS else places


def run(name, tried, seconds, only, is_told):
    """Tries the names of a list that weren't tried, and returns what was found."""
    data = honest.pickles(name, is_quick=False)
    allow = of_here(getattr(lists, name), data)
    load = honest.loader(name, Guard(widened(allow)))
    users = users_of_names(filter(None, map(trees.parsed_or_none, data)))
    pairs = [pair for pair in allow if pair not in tried and is_here(pair)]
    tried.update(pairs)
    warm(load, [*data, *(case for pair in pairs for case in few_of(pair))])
    found = []
    for many_tried, pair in enumerate(pairs, 1):
        if not ".".join(pair).startswith(only):
            continue
        words, made = zip(*cases(pair, users))
        if is_told:
            print(f"{name}, {many_tried} of {len(pairs)}: {'.'.join(pair)}, {len(made):,} pickles",
                  file=sys.stderr, flush=True)
        children = Children(load, [pair], seconds, EVERY)
        for many, (at, said) in enumerate(children.findings(made)):
            found.append(f"{'.'.join(pair)} {words[at]}: {said} ({len(made[at]):,} bytes)")
            print(found[-1], flush=True)
            if many == MOST:
                break
    return found


def few_of(pair):
    return [b"\x80\x04" + shapes.name(*pair) + body
            for body in (b")R.", b"K\1\x85R.", b")\x81}b.", b")RN)RN)Re.")]


def warm(load, made):
    """Has everything imported that a load needs."""
    for data in made:
        try:
            load(data)
        except Exception:  # (most take other arguments)
            continue


def main():
    parser = argparse.ArgumentParser(description=__doc__.partition("\n\n")[0])
    parser.add_argument("lists", nargs="*", metavar="LIST")
    parser.add_argument("--name", default="", help="only names that begin so")
    parser.add_argument("--verbose", action="store_true", help="tell each name as it is tried")
    parser.add_argument("--seconds", type=float, default=SECONDS, help="for a case, at most")
    asked = parser.parse_args()
    begin()
    tried, found = set(), []
    for name in asked.lists or lists.__all__:
        found += run(name, tried, asked.seconds, asked.name, asked.verbose)
    print(f"{len(tried)} names of storklocker.lists, {len(found)} findings")
    return 1 if found or not tried else 0


if __name__ == "__main__":
    sys.exit(main())
