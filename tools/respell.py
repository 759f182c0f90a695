#!/usr/bin/env python3
"""Respell the repository's own definitions and lemmas for the newer Rattle.

    tools/respell.py

Run it once, at the top, after the toolchain's own upgrade script. That script turns
only the names that it shares with a library; this one turns the others. A definition
is spelled in snake case. In a lemma's name a dash joins two names, of which each is
a definition's or a fact's; a plain word is joined by an underscore, and a fact keeps
its capital. Strings, functions of src/ and exported names have none of these spellings.
"""
import os
import re

DEFINITIONS = """
flatCount flatPages howMany lastPlace logCount logPages marksAfter memoryOf orderAfter
pagesOf pastLastPage pastLastSlot recordAt recordsIn recordsOf slotsIn unlessLater usedAgo
withRoom
""".split()

# Lemmas whose dashes all become underscores.
PLAIN = """
above-later after-clear after-pass ahead-of-now came-back change-made cleared-one
compact-few compact-known compacted-few compacted-last compacted-none compacted-some
content-first content-is content-later content-push content-wide copy-all emptied-all
emptied-more emptied-none emptied-skip exact-laid export-more export-whole flat-fits
flat-length flat-past flat-read flat-shaped flat-write has-cases has-later has-next
has-own has-without heard-order index-none index-right index-some is-last-later
kept-length last-earlier last-later log-at log-laid log-length log-reads log-shaped
log-write longest-ago member-or-not next-used no-mark not-used oldest-goes one-le
part-piece piece-ends pieces-same price-length price-put put-exact put-indexed put-kept
put-known put-length put-past put-records records-put rising-later room-left room-made
same-records second-chance slot-bytes slot-moved slot-page slots-put some-notices
still-ahead still-falling still-used sweeps-member tells-emptied tells-used
tracks-emptied tracks-ignored tracks-used turn-passed turned-all turned-pass turned-take
unused-goes used-before used-later used-then used-up-to with-room-is without-absent
without-lacks without-others without-unknown word-put
""".split()

# Lemmas that name a definition or a fact.
NAMED = {
    "ahead-later": "Ahead-later",
    "all-compacted": "All-compacted",
    "all_known": "Known-from_All",
    "apart-push": "Apart-push",
    "apart-take": "Apart-take",
    "apart-without": "Apart-without",
    "bytesAt-push": "bytes_at_push",
    "climbs-push": "IsStrictlyIncreasing-push",
    "content-with-room": "content-with_room",
    "getD-piece": "get_or-piece",
    "getD-pieces": "get_or-pieces",
    "getD-recordsIn": "get_or-records_in",
    "howMany-le": "how_many_le",
    "howMany-more": "how_many_more",
    "howMany-none": "how_many_none",
    "howMany-same": "how_many_same",
    "in-turn-like": "InTurn-like",
    "in-turn-push": "InTurn-push",
    "known-all": "All-from_Known",
    "known-push": "Known-push",
    "known-take": "Known-take",
    "known-without": "Known-without",
    "lastPlace-is": "last_place_is",
    "lastPlace-located": "last_place_located",
    "lastPlace-none": "last_place_none",
    "lastPlace-push": "last_place_push",
    "length-recordsIn": "length-records_in",
    "pairs-from-apart": "Pairs-from_Apart",
    "pairs-getD": "Pairs-get_or",
    "pairs-kept-by": "Pairs-filter",
    "pairs-push": "Pairs-push",
    "pairs-take": "Pairs-take",
    "piece-overwritten-above": "piece-overwritten_above",
    "piece-overwritten-below": "piece-overwritten_below",
    "piece-overwritten-other": "piece-overwritten_other",
    "piece-overwritten-same": "piece-overwritten_same",
    "putMid-overwritten": "put_mid-overwritten",
    "putMid-piece": "put_mid-piece",
    "recordsIn-more": "records_in_more",
    "tells-later": "Tells-later",
    "up-to": "order_of-up_to",
}


def snake(name):
    return re.sub(r"([A-Z])", lambda m: "_" + m.group(1).lower(), name)


def table():
    names = {name: snake(name) for name in DEFINITIONS}
    names.update((name, name.replace("-", "_")) for name in PLAIN)
    names.update(NAMED)
    return names


def main():
    names = table()
    # A name of antt goes on over letters, digits, dashes, primes and most symbols.
    one = re.compile(r"(?<![\w'≢-])(%s)(?![\w'≢-])" % "|".join(sorted(map(re.escape, names), key=len, reverse=True)))
    for folder, _, files in os.walk("crates"):
        for file in sorted(files):
            if not file.endswith((".antt", ".rt")):
                continue
            path = os.path.join(folder, file)
            with open(path, encoding="utf-8") as f:
                old = f.read()
            # In code only the ghost text can have these names, and none of them is a word there.
            new = one.sub(lambda m: names[m.group(1)], old)
            if new != old:
                with open(path, "w", encoding="utf-8") as f:
                    f.write(new)


if __name__ == "__main__":
    main()
