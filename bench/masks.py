"""Answers the lines of groups of the program `descriptor_check` by a walk over all sets of dimensions.

Usage: python3 bench/masks.py < LINES: writes the answer of each line `masks`, `count`, `parents`, `first_children`,
`next_siblings`, `next_in_layers`, `layer` or `first_in_layer`, and every other line as it stands.
python3 bench/masks.py seeded COUNT SEED: writes such lines for COUNT groups of up to 12 dimensions.

A group is `INCLUDES|MANDATORY|HIERARCHIES|JOINTS|CAP`: dimensions have a comma between two, hierarchies and joints a semicolon.
"""

import random
import sys

MOST_CUBOIDS = 4096


def numbers(text):
    return [int(word) for word in text.split(",")] if text else []


def lists(text):
    return [numbers(word) for word in text.split(";")] if text else []


def group_of(text):
    fields = (text.split("|") + [""] * 5)[:5]
    return numbers(fields[0]), numbers(fields[1]), lists(fields[2]), lists(fields[3]), int(fields[4]) if fields[4] else None


def is_given(group, chosen):
    """Whether the group gives the set of dimensions as a cuboid."""
    includes, mandatory, hierarchies, joints, cap = group
    if not chosen or not chosen <= set(includes) or not set(mandatory) <= chosen:
        return False
    if any(later in chosen and earlier not in chosen for list_ in hierarchies for place, later in enumerate(list_) for earlier in list_[:place]):
        return False
    if any(0 < len(chosen & set(joint)) < len(set(joint)) for joint in joints):
        return False
    return cap is None or len(chosen) <= cap


def dimensions_of(mask):
    return {d for d in range(mask.bit_length()) if mask >> d & 1}


def built(n, groups):
    """The masks of a cube's cuboids: of every set of its dimensions the one that is all of them, and those that a group gives."""
    base = (1 << n) - 1
    return [mask for mask in range(1, base + 1) if mask == base or any(is_given(group, dimensions_of(mask)) for group in groups)]


def parent_of(masks, place):
    own = masks[place]
    above = [(bin(mask).count("1"), mask, k) for k, mask in enumerate(masks) if mask != own and mask & own == own]
    return min(above)[2] if above else None


def places_of(masks, word):
    parents = [parent_of(masks, place) for place in range(len(masks))]
    sizes = [bin(mask).count("1") for mask in masks]
    later = range(len(masks))

    def first(places):
        return next(iter(places), None)

    if word == "parents":
        return parents
    if word == "first_children":
        return [first(k for k in later if parents[k] == place) for place in later]
    if word == "next_siblings":
        return [first(k for k in later if k > place and parents[place] is not None and parents[k] == parents[place]) for place in later]
    return [first(k for k in later if k > place and sizes[k] == sizes[place]) for place in later]


def said(place):
    return "-" if place is None else str(place)


def answer(line):
    word, _, rest = line.partition(" ")
    dims = None
    if word in ("layer", "first_in_layer"):
        dims, _, rest = rest.partition(" ")
    count, _, groups = rest.partition(" ")
    masks = built(int(count), [group_of(text) for text in groups.split("/")])
    if word in ("masks", "count") and len(masks) > MOST_CUBOIDS:
        return "TooManyCuboids"
    if word == "masks":
        return " ".join(["masks"] + [str(mask) for mask in masks])
    if word == "count":
        return f"count {len(masks)}"
    if dims is not None:
        layer = [str(place) for place, mask in enumerate(masks) if bin(mask).count("1") == int(dims)]
        return " ".join([word] + (layer if word == "layer" else layer[:1] or ["-"]))
    return " ".join([word] + [said(place) for place in places_of(masks, word)])


WORDS = ("masks", "count", "parents", "first_children", "next_siblings", "next_in_layers", "layer", "first_in_layer")


def seeded_group(rng, n):
    includes = rng.sample(range(n), rng.randint(max(1, n // 2), n))
    free = includes[:]
    rng.shuffle(free)

    def taken(most):
        count = min(len(free), rng.randint(2, most))
        return [free.pop() for _ in range(count)] if count > 1 else []

    mandatory = sorted(free.pop() for _ in range(rng.choice((0, 0, 1, 2))) if free)
    hierarchies = [list_ for list_ in (taken(4) for _ in range(rng.choice((0, 1, 1, 2)))) if list_]
    joints = [list_ for list_ in (taken(3) for _ in range(rng.choice((0, 1, 1, 2)))) if list_]
    cap = rng.choice(("", "", str(rng.randint(1, n))))
    shown = [",".join(map(str, includes)), ",".join(map(str, mandatory))]
    shown += [";".join(",".join(map(str, list_)) for list_ in several) for several in (hierarchies, joints)]
    return "|".join(shown + [cap])


def seeded(count, seed):
    rng = random.Random(seed)
    for number in range(count):
        n = rng.randint(2, 12)
        groups = "/".join(seeded_group(rng, n) for _ in range(rng.choice((1, 1, 2, 3))))
        print(f"count {n} {groups}")
        if n <= 8:
            print(f"masks {n} {groups}")
        if number % 4 == 0:
            print(f"parents {n} {groups}\nfirst_children {n} {groups}\nnext_siblings {n} {groups}\nnext_in_layers {n} {groups}")


if sys.argv[1:2] == ["seeded"]:
    seeded(int(sys.argv[2]), int(sys.argv[3]))
else:
    for given in sys.stdin.read().splitlines():
        print(answer(given) if given.partition(" ")[0] in WORDS else given)
