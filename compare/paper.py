#!/usr/bin/env python3
# Document 01 as a plain program: a second opinion on the oracle, and a program to try `check` with.
#
# Written from document 01's text, document 02's request 2 and notes/READINGS.md, not from the Rust.
# The same flags as the oracle: --states, --fold.
import sys

TOP = (1 << 128) - 1


class Refused(Exception):
    def __init__(self, number, a=0, b=0):
        self.answer = (number, a, b)


def refuse(when, number, a=0, b=0):
    if when:
        raise Refused(number, a, b)


# ---- Reading: 1 to 4 ----

class Body:
    def __init__(self, data):
        self.data, self.at = data, 0

    def take(self, count):
        refuse(self.at + count > len(self.data), 3)
        self.at += count
        return self.data[self.at - count:self.at]

    def number(self, count):
        return int.from_bytes(self.take(count), "big")

    def among(self, low, high):
        value = self.number(1)
        refuse(not low <= value <= high, 3)
        return value

    def item(self, codes):
        item = self.take(33)
        refuse(item[0] not in codes, 3)
        return item

    def count(self, limit):
        count = self.number(1)
        refuse(count > limit, 4)
        return count

    def items(self, codes):
        return [self.item(codes) for _ in range(self.count(16))]

    def threshold(self):
        if self.among(0, 1) == 0:
            return self.number(8)
        sizes = []
        for _ in range(self.count(16)):
            sizes.append(self.number(1))
            refuse(sum(sizes) > 16, 4)
        return [[(self.number(8), self.number(8)) for _ in range(size)] for size in sizes]

    def config(self):
        return [self.among(1, 15) for _ in range(self.count(8))]

    def signature(self):
        code, index, flag, ondex = self.number(1), self.number(4), self.among(0, 1), self.number(4)
        refuse(flag == 0 and ondex != 0, 3)
        raw = self.take(64)
        verified, matches = self.among(0, 1), self.among(0, 1)
        return (code, index, ondex if flag else None, raw), verified, matches

    def signatures(self):
        return [self.signature() for _ in range(self.count(48))]


KEY, DIGEST = b"BD", b"EFGHI"
PREFIX = KEY + DIGEST
READ = {
    "prefix": lambda b: b.item(PREFIX), "sn": lambda b: b.number(16),
    "said": lambda b: b.item(DIGEST), "prior": lambda b: b.item(DIGEST),
    "keys": lambda b: b.items(KEY), "threshold": Body.threshold,
    "next": lambda b: b.items(DIGEST), "next_threshold": Body.threshold,
    "witnesses": lambda b: b.items(KEY), "additions": lambda b: b.items(KEY),
    "removals": lambda b: b.items(KEY), "toad": lambda b: b.number(4), "config": Body.config,
    "anchors": lambda b: b.number(4), "signatures": Body.signatures, "receipts": Body.signatures,
    "type": lambda b: b.among(0, 2), "transferable": lambda b: b.among(0, 1),
    "est_sn": lambda b: b.number(16), "est_said": lambda b: b.item(DIGEST),
}
FIELDS = {
    "IC": "prefix sn said keys threshold next next_threshold witnesses toad config anchors"
          " signatures receipts",
    "RO": "prefix sn said prior keys threshold next next_threshold additions removals toad"
          " anchors signatures receipts",
    "IX": "prefix sn said prior anchors signatures receipts",
    "KS": "prefix sn said type keys threshold next next_threshold witnesses toad config"
          " transferable est_sn est_said",
    "DI": "", "DR": "",
}


def read(mark, data):
    refuse(mark not in FIELDS, 2)
    body = Body(data)
    record = {name: READ[name](body) for name in FIELDS[mark].split()}
    refuse(mark[0] != "D" and body.at != len(data), 3)
    return record


# ---- Saving ----

def save(state):
    def threshold(value):
        if isinstance(value, int):
            return b"\0" + value.to_bytes(8, "big")
        flat = b"".join(n.to_bytes(8, "big") + d.to_bytes(8, "big") for c in value for n, d in c)
        return bytes([1, len(value)] + [len(c) for c in value]) + flat

    def items(value):
        return bytes([len(value)]) + b"".join(value)

    s = state
    body = (s["prefix"] + s["sn"].to_bytes(16, "big") + s["said"] + bytes([s["type"]])
            + items(s["keys"]) + threshold(s["threshold"]) + items(s["next"])
            + threshold(s["next_threshold"]) + items(s["witnesses"]) + s["toad"].to_bytes(4, "big")
            + bytes([len(s["config"])] + s["config"]) + bytes([s["transferable"]])
            + s["est_sn"].to_bytes(16, "big") + s["est_said"])
    return b"KS" + len(body).to_bytes(2, "big") + body


# ---- Thresholds, counts, lists ----

def enough(clause, base, places):
    # With D the product of the signed denominators and N the numerator over D, a clause
    # passes exactly when no denominator is 0 and D <= N < 2^64.
    top, bottom = 0, 1
    for place, (n, d) in enumerate(clause):
        if base + place in places:
            top, bottom = top * d + n * bottom, bottom * d
    return all(d for _, d in clause) and bottom <= top < 1 << 64


def check_threshold(threshold, places, number):
    """a is how many places there are, b the first clause that is short, from 1, or 0 for none to name."""
    if isinstance(threshold, int):
        return refuse(len(places) < threshold, number, len(places))
    refuse(not threshold, number, len(places))
    bases = [sum(map(len, threshold[:k])) for k in range(len(threshold))]
    short = [k + 1 for k, clause in enumerate(threshold) if not enough(clause, bases[k], places)]
    refuse(short, number, len(places), min(short, default=0))


def shape(threshold, keys):
    if isinstance(threshold, int):
        refuse(threshold == 0, 23)
        refuse(threshold > keys, 24, threshold, keys)
        return
    refuse(not threshold, 25)
    refuse([] in threshold, 26)
    weights = sum(map(len, threshold))
    refuse(weights > keys, 24, weights, keys)


def first_copies(signatures):
    first = {}
    for wire, verified, matches in signatures:
        first.setdefault(wire, (verified, matches))
    return first


def counted(signatures, places):
    """Wire values that are verified and have a place."""
    return {wire: matches for wire, (verified, matches) in first_copies(signatures).items()
            if verified and wire[1] < places}


def check_signatures(signatures, keys, threshold):
    good = counted(signatures, len(keys))
    places = {wire[1] for wire in good}
    check_threshold(threshold, places, 27)
    return good


def check_receipts(receipts, witnesses, toad):
    places = {wire[1] for wire in counted(receipts, len(witnesses))}
    refuse(len(places) < toad, 32, len(places), toad)


def check_toad(toad, witnesses):
    refuse(toad == 0 and witnesses > 0, 30, witnesses)
    refuse(toad > witnesses, 31, toad, witnesses)


def duplicate(members, which):
    refuse(len(set(members)) != len(members), 18, which)


def transferable(members, which):
    refuse(any(member[0] == ord("D") for member in members), 19, which)


def updated(current, removals, additions):
    kept = [member for member in current if member not in removals]
    return kept + [one for one in dict.fromkeys(additions) if one not in kept]


# ---- The checks in order ----

def take_inception(r):
    refuse(r["sn"] != 0, 11, r["sn"])
    code = chr(r["prefix"][0])
    if code in "BD":
        refuse(len(r["keys"]) != 1, 12, len(r["keys"]))
        refuse(r["threshold"] != 1, 13)
        refuse(r["keys"][0] != r["prefix"], 14)
    if code == "B":
        refuse(r["next"], 15)
        refuse(r["witnesses"], 16)
        refuse(r["anchors"], 17)
    duplicate(r["witnesses"], 1)
    transferable(r["witnesses"], 1)
    shape(r["threshold"], len(r["keys"]))
    check_signatures(r["signatures"], r["keys"], r["threshold"])
    if r["next"]:
        shape(r["next_threshold"], len(r["next"]))
    refuse(code == "B" and r["next"], 29)
    check_toad(r["toad"], len(r["witnesses"]))
    check_receipts(r["receipts"], r["witnesses"], r["toad"])
    return fold_inception(r)


def follows(state, r):
    refuse(r["prefix"] != state["prefix"], 33)
    refuse(state["sn"] == TOP, 34)
    refuse(r["sn"] != state["sn"] + 1, 35, state["sn"] + 1, r["sn"])
    refuse(r["prior"] != state["said"], 36)


def take_rotation(state, r):
    follows(state, r)
    shape(r["threshold"], len(r["keys"]))
    if r["next"]:
        shape(r["next_threshold"], len(r["next"]))
    good = check_signatures(r["signatures"], r["keys"], r["threshold"])
    exposed = {wire[2] for wire, matches in good.items()
               if matches and wire[2] is not None and wire[2] < len(state["next"])}
    check_threshold(state["next_threshold"], exposed, 28)
    removals, additions, current = r["removals"], r["additions"], state["witnesses"]
    duplicate(removals, 2)
    duplicate(additions, 3)
    refuse(set(removals) & set(additions), 20)
    transferable(removals, 2)
    transferable(additions, 3)
    refuse(any(one not in current for one in removals), 21)
    refuse(any(one in current for one in additions), 22)
    after = fold_rotation(state, r)
    check_toad(r["toad"], len(after["witnesses"]))
    check_receipts(r["receipts"], after["witnesses"], r["toad"])
    return after


def take_interaction(state, r):
    refuse(1 in state["config"], 37)
    follows(state, r)
    check_signatures(r["signatures"], state["keys"], state["threshold"])
    check_receipts(r["receipts"], state["witnesses"], state["toad"])
    return fold_interaction(state, r)


def offer(state, mark, r):
    if state is None:
        if mark == "KS":
            return r
        refuse(mark == "DI", 6)
        refuse(mark != "IC", 8)
        return take_inception(r)
    refuse(mark == "KS", 5)
    refuse(not state["transferable"], 10)
    refuse(mark == "DR", 7)
    refuse(mark == "DI", 6)
    refuse(mark == "IC", 9)
    return take_rotation(state, r) if mark == "RO" else take_interaction(state, r)


# ---- The unchecked fold ----

def fold_inception(r):
    names = "prefix sn said keys threshold next next_threshold witnesses toad config".split()
    return dict({name: r[name] for name in names}, type=0, est_sn=r["sn"], est_said=r["said"],
                transferable=int(r["prefix"][0] != ord("B") and len(r["next"]) > 0))


def fold_rotation(state, r):
    after = dict(state, type=1, est_sn=r["sn"], est_said=r["said"])
    for name in "sn said keys threshold next next_threshold toad".split():
        after[name] = r[name]
    after["witnesses"] = updated(state["witnesses"], r["removals"], r["additions"])
    refuse(len(after["witnesses"]) > 16, 38, len(after["witnesses"]))
    if not r["next"]:
        after["transferable"] = 0
    return after


def fold_interaction(state, r):
    return dict(state, sn=r["sn"], said=r["said"], type=2)


def fold(state, mark, r):
    if mark == "KS":
        return r
    refuse(mark in ("DI", "DR"), 6)
    if mark == "IC":
        return fold_inception(r)
    refuse(state is None, 8)
    return fold_rotation(state, r) if mark == "RO" else fold_interaction(state, r)


def main():
    step = fold if "--fold" in sys.argv else offer
    states = "--states" in sys.argv
    data = sys.stdin.buffer.read()
    state, at, offered, accepted, lines = None, 0, 0, 0, []
    while at < len(data):
        offered += 1
        length = int.from_bytes(data[at + 2:at + 4], "big")
        if len(data) - at < 4 or len(data) - at - 4 < length:
            mark, answer, at = "??", (1, 0, 0), len(data)
        else:
            mark, body = data[at:at + 2].decode("latin1"), data[at + 4:at + 4 + length]
            at += 4 + length
            try:
                state, answer = step(state, mark, read(mark, body)), (0, 0, 0)
                accepted += 1
            except Refused as refused:
                answer = refused.answer
                if answer[0] == 2:
                    mark = "??"
        lines.append("%d %s %d %x %x" % (offered, mark, *answer))
        if states:
            lines.append(save(state).hex() if state else "-")
    lines.append("end %d %d %s" % (accepted, offered, "%x" % state["sn"] if state else "-"))
    print("\n".join(lines))


main()
