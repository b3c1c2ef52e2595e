#!/usr/bin/env python3
"""The table rules of 01 over the octets of docs/TABLE.md, written without a look at the engine, and the listing that tests/judge.c
prints by asking the engine.

  target/tests/judge tables | tests/judge.py > tests/judge.expected
"""
import functools, sys

MAP, GUARANTEES, LIMITS, PLACES_AT, PLACE, PLACES = 0, 16, 32, 48, 284, 128
FREE, OPEN, SENT, RECEIVED, ACTIVE = range(5)
PROBLEMS = {0: range(3), 1: range(8), 2: range(3), 3: range(5)}                # the nineteen codes by kind
SUB_LAYER = {(0, 0), (0, 1), (0, 2), (1, 5), (2, 0), (2, 1), (3, 0), (3, 1)}   # those that the component sub-layer sends


class Malformed(Exception):
    pass


def need(holds):
    if not holds:
        raise Malformed


# ---- Coding

def tag(o, i, end):
    """The octet after the tag at i."""
    need(i < end and o[i] != 0)
    if o[i] & 0x1F != 0x1F:
        return i + 1
    number, first = 0, i + 1
    for j in range(first, min(first + 4, end)):
        need(j > first or o[j] != 0x80)
        number = number * 128 + o[j] % 128
        if o[j] < 0x80:
            need(number >= 31)
            return j + 1
    raise Malformed


def length(o, i, end):
    """The length at i, None where it is indefinite, and the octet after it."""
    need(i < end)
    if o[i] < 0x80:
        return o[i], i + 1
    if o[i] == 0x80:
        return None, i + 1
    need(o[i] in (0x81, 0x82))
    octets = o[i] - 0x80
    need(i + octets < end)
    n = int.from_bytes(o[i + 1:i + 1 + octets], "big")
    need(n >= (128 if octets == 1 else 256))
    return n, i + 1 + octets


def element(o, i, end, depth):
    """Where the contents of the element at i begin and stop, and the octet after it."""
    need(depth <= 16)
    at = tag(o, i, end)
    n, at = length(o, at, end)
    constructor = o[i] & 0x20
    if n is not None:
        need(at + n <= end)
        j = at if constructor else at + n
        while j < at + n:
            j = element(o, j, at + n, depth + 1)[2]
        return at, at + n, at + n
    need(constructor)
    j = at
    while o[j:min(j + 2, end)] != b"\0\0":
        j = element(o, j, end, depth + 1)[2]
    return at, j, j + 2


def small(o, i, end, tag, least, most):
    """The octet after a primitive element with this tag and a number of octets in this range."""
    need(i < end and o[i] == tag)
    at, stop, after = element(o, i, end, 2)
    need(least <= stop - at <= most)
    return after


def code(o, i, end):
    """An operation or an error."""
    need(i < end)
    return small(o, i, end, 2, 1, 4) if o[i] == 2 else small(o, i, end, 6, 1, 1000)


def parameter(o, i, end):
    """At most one element, and nothing after it."""
    need(i == end or element(o, i, end, 2)[2] == end)


def reject(o, i, end):
    i = small(o, i, end, 2, 1, 1) if o[i] == 2 else small(o, i, end, 5, 0, 0)
    need(i < end and 0x80 <= o[i] <= 0x83)
    need(small(o, i, end, o[i], 1, 1) == end and o[end - 1] in PROBLEMS[o[i] - 0x80])


def component(o, i, end):
    """The octet after a sound component."""
    need(i < end and o[i] in (0xA1, 0xA2, 0xA3, 0xA4, 0xA7))
    kind = o[i]
    i, stop, after = element(o, i, end, 1)
    need(i < stop)
    if kind == 0xA4:
        reject(o, i, stop)
        return after
    i = small(o, i, stop, 2, 1, 1)
    if kind in (0xA1, 0xA3):
        if kind == 0xA1 and i < stop and o[i] == 0x80:
            i = small(o, i, stop, 0x80, 1, 1)
        parameter(o, code(o, i, stop), stop)
    elif i < stop:
        need(o[i] == 0x30)
        inside, inside_stop, inside_after = element(o, i, stop, 2)
        need(inside_after == stop)
        inside = code(o, inside, inside_stop)
        need(inside < inside_stop)
        parameter(o, inside, inside_stop)
    return after


# ---- Table rules

def invocations_kept(octets):
    ids = []
    for id, packed in zip(octets[0::2], octets[1::2]):
        state, cls = packed % 8, packed // 8 % 8
        if state == 0:
            need(id == 0 and packed == 0)
            continue
        need(state <= 4 and 1 <= cls <= 4 and packed < 128)
        ids.append(id)
    need(len(ids) == len(set(ids)))


def rejects_kept(octets, n):
    need(n <= 8 and not any(octets[2 * n:]))
    for id, packed in zip(octets[0:2 * n:2], octets[1:2 * n:2]):
        problem, without = (packed % 128 // 8, packed % 8), packed >= 128
        need(problem in SUB_LAYER and (not without or problem[0] == 0 and id == 0))


def waiting_kept(octets, n):
    need(n <= 240 and not any(octets[n:]))
    i = 0
    while i < n:
        i = component(octets, i, n)


@functools.lru_cache(maxsize=100000)
def place_kept(o):
    """What a place has to keep by itself."""
    try:
        state, service, peer = o[3], o[4], o[5]
        if state == FREE:
            need(not any(o[3:]))
            return True
        need(state <= ACTIVE and service <= 15)
        need(1 <= peer <= 4 if state in (RECEIVED, ACTIVE) else peer == 0)
        need(not any(o[6 + peer:10]))
        invocations_kept(o[12:28])
        rejects_kept(o[28:44], o[11])
        waiting_kept(o[44:], o[10])
        return True
    except Malformed:
        return False


def shares_kept(guarantees, limits, services):
    """`services` has the service of each dialogue."""
    used = [services.count(s) for s in range(16)]
    return (all(g <= l <= PLACES for g, l in zip(guarantees, limits)) and sum(guarantees) <= PLACES
            and all(u <= l for u, l in zip(used, limits))
            and PLACES - len(services) >= sum(max(0, g - u) for g, u in zip(guarantees, used)))


def sound(table):
    places = [table[PLACES_AT + p * PLACE:PLACES_AT + (p + 1) * PLACE] for p in range(PLACES)]
    free = int.from_bytes(table[MAP:GUARANTEES], "little")
    return (all((free >> p & 1) == (o[3] == FREE) and place_kept(o) for p, o in enumerate(places))
            and shares_kept(table[GUARANTEES:LIMITS], table[LIMITS:PLACES_AT], [o[4] for o in places if o[3] != FREE]))


# ---- The listing

tried = 0


def accepted(table, offset, values):
    global tried
    tried += len(values)
    taken = [v for v in values if sound(table[:offset] + bytes([v]) + table[offset + 1:])]
    text = ""
    for v in taken:
        if v - 1 not in taken:
            last = v
            while last + 1 in taken:
                last += 1
            text += f" {v}-{last}" if last > v else f" {v}"
    return text


def list_range(table, first, last, every):
    texts = [accepted(table, i, range(256) if every else (0, 1, 128, 255)) for i in range(first, last + 1)]
    start = 0
    for i in range(1, len(texts) + 1):
        if i == len(texts) or texts[i] != texts[start]:
            print(f"{first + start}-{first + i - 1}{'' if every else ' few'}:{texts[start]}")
            start = i


def main():
    table = b""
    for line in sys.stdin:
        words = line.split()
        if words[0] == "table":
            print(line.rstrip())
        elif words[0] == "sample":
            list_range(table, int(words[1]), int(words[2]), words[3] == "1")
        else:
            table = bytes.fromhex(words[0])
            if not sound(table):
                sys.exit("judge.py: the table itself is not sound")
    print(f"judge: {tried} values tried")


if __name__ == "__main__":
    main()
