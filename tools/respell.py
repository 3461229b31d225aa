#!/usr/bin/env python3
"""Respells the project's own definitions and lemmas: words in snake case, types and modules in camel case.

Run once at the top, right after port.py. It reads which names the crates declare and changes those that have a capital inside, a dash or a
middle dot: `firstBad` is `first_bad`, `entry-ok` is `entry_ok`. A lemma that would get the name of a definition or of a function ends in
`_lem`. It leaves alone what the library or Rattle itself names, code, strings, and the names that answers have in a function's proof file.
In pages it changes what stands between backticks.
"""
import collections
import os
import re

OWN = {line.split(":")[0].strip() for line in open("crates.txt") if ":" in line}
WORD = r"[^\s(){},;.\"\\`]+"
ODD = re.compile(r"[a-z0-9][A-Z]|-|·")
# names that port.py put into snake case, for the pages
BY_PORT = """
add-a add-at add-done add-kept add-wide after-next after-none alike-self all-above all-any all-append all-both all-filter
all-found all-map all-of all-said all-true and-i and-l and-r andThen answerOf any-append any-false any-found any-here as-none
asked-is askedOf asks-none asks-nothing at-base at-clash at-every at-next at-none at-own at-zero behind-more below-one below-other
between-none between-start box-in box-value by-tags carry-over classOf code-other cond-same copy-stored count-next count-none
countOf counts-behind cut-again cut-fits cut-short cut-spec cuts-back cuts-said digits-are distinct-apart edge-at edge-here
edge-on edgeCount edges-at edges-fit edges-room either-first enter-spec entry-first entry-found entry-here entry-next entryOf
every-front fields-read fields-value fieldsAt filter-congr filter-none filterMap-congr find-head find-none find-spec first-any
first-fits first-passes first-rows first-run first-said first-then firstOf flag-small formOf found-some from-at from-is from-last
from-next getD-rows given-is gives-back goes-on half-down half-place half-room half-up held-none high-byte idAt in-list in-one
in-table input-ok isRefused isSome join-is kindAt laid-both laid-done lay-at lay-done least-above least-start left-end left-is
left-laid left-less left-not length-digits length-none length-over length-union lent-back line-read line-refused list-at
list-written listOf listed-at main-spec marked-all marked-other mul-at named-here named-none namedOf next-both next-one next-past
nextFrom no-bare no-fields no-room node-at node-end node-ok none-both none-first none-left not-on not-there number-is number-small
numberIn numberOf numbering-row numbering-start of-part on-room one-form one-more one-same one-table or-swap over-none own-any
own-at own-first own-held own-is own-out own-read own-room own-row pair-made pair-size part-count parts-join parts-low passed-none
passes-kept piece-is pieceOf place-found place-is placeIn planOf rank-falls rankOf read-low restOf rises-into room-in room-row
row-below row-in row-is row-scaled row-small row-within rowAt rowOf rows-all rows-back rows-end rows-in rows-made rows-next
rows-out run-end run-length run-none run-target same-answer same-asked same-flag same-inputs same-length same-none same-number
same-refl same-row same-self same-size same-spec same-test same-true second-below second-fits size-is sizeOf small-bytes some-left
split-rest start-none step-kept stored-on sum-below table-none tallyOf to-is to-room to-row toAt total-of trail-falls turn-is
two-said u32At union-assoc union-comm upTo walk-end walk-more walk-start whole-is whole-room wide-enough written-read written-then
yes-or-no zeroed-start code-stays enum-told none-told one-told
""".split()
# a record's fields that are named for the functions that they speak of, and what Rattle makes of a function's contract
FOR_FUNCTIONS = set("""judge-bytes cut-bytes join-bytes census-bytes trail-bytes check-network check-list check-sheet lnianotka-check
lnianotka-judge lnianotka-census lnianotka-trail lnianotka-cut lnianotka-join""".split())
# port.py's `firstOf` fell on the name of a tactic; a middle dot of the library's is a dash
BY_HAND = {"first_of": "first_applying", "Option·elim": "Option-elim"}


def files(*ends):
    for top, _, names in os.walk("."):
        if re.search(r"/(out|.git|target)(/|$)", top):
            continue
        for name in names:
            if name.endswith(ends):
                yield os.path.join(top, name)


def bare(text):
    return re.sub(r"--[^\n]*|//[^\n]*", "", text)


def snake(name):
    parts = []
    for part in re.split(r"[-·]", name):
        if part[:1].isupper() and "·" not in name:
            parts.append(part)
        else:
            part = re.sub(r"(?<=[a-z0-9])([A-Z])", lambda m: "_" + m.group(1).lower(), part)
            parts.append(part[:1].lower() + part[1:] if "·" in name else part)
    return "_".join(parts)


def mapping():
    library, declared, seen, where, modules = set(), set(), set(), collections.defaultdict(set), set()
    for path in files(".antt", ".rt"):
        text = bare(open(path).read())
        for head, names in re.findall(r"(?:use|open)\s+([\w·.+\-]+)\.\{([^}]*)\}", text):
            crate = re.match(r"Rattle\.(\w+)\.", head)
            if crate and crate.group(1) in OWN and ".declared." not in head:
                # an alias is the file's own
                declared |= set(re.findall(r" as (" + WORD + ")", names))
                continue
            library |= set(re.split(r"[,\s]+", names)) - {""}
        modules |= set(re.findall(r"^use [\w.]+ as (" + WORD + ")", text, re.M))
        words = set(re.findall(WORD, text))
        seen |= words
        if path.endswith("/Proof.antt"):
            continue
        for word in words:
            if ODD.search(word):
                where[word].add(path)
        if path.endswith(".antt"):
            for line in text.splitlines():
                m = re.match(r"\s*(?:(?:unfoldable|abbrev|pub|data|record|ruleset)\s+)*(" + WORD + r")((?:\s+" + WORD + r")*)\s*:\s", line)
                if m and not re.match(r"\s*(use|let|in|λ)\b", line):
                    declared |= {m.group(1), *m.group(2).split()}
    odd = {w for w in where if w not in library and re.search(r"\w", w) and not re.match(r"(Need|Inv)-|[\d-]", w)}
    # Upper-case names without a dash are types already
    odd = {w for w in odd if not (w[:1].isupper() and not re.search(r"[-·]", w))}
    definitions = {w for w in odd if "-" not in w}
    new = {w: snake(w) for w in definitions}
    taken = seen | set(new.values())
    for word in sorted(odd - definitions):
        name = snake(word)
        if word in modules:
            new[word] = name
            continue
        if name in taken and word in declared and word not in FOR_FUNCTIONS:
            name += "_lem"
            assert name not in taken, (word, name)
        new[word] = name
        taken.add(name)
    assert "·" not in "".join(v for v in new.values()), [v for v in new.values() if "·" in v]
    twice = [v for v, n in collections.Counter(v for w, v in new.items() if w not in modules).items() if n > 1]
    assert not twice, twice
    new.update(BY_HAND)
    return new


def respell(text, new, comment):
    def words(part):
        return re.sub(WORD, lambda m: new.get(m.group(0), m.group(0)), part)

    def camel(part):
        part = re.sub(r"`[^`]*`", lambda m: words(m.group(0)), part)
        return re.sub(WORD, lambda m: new.get(m.group(0), m.group(0)) if "-" not in m.group(0) else m.group(0), part)

    out = []
    for piece in re.split(r'("(?:[^"\\]|\\.)*"|' + comment + r"[^\n]*)", text):
        if piece.startswith('"'):
            out.append(piece)
        elif re.match(comment, piece):
            out.append(camel(piece))
        else:
            out.append(words(piece))
    return "".join(out)


def main():
    new = mapping()
    for path in files(".antt", ".rt", ".edit"):
        text = open(path).read()
        after = respell(text, new, "//" if path.endswith(".rt") else "--")
        if after != text:
            open(path, "w").write(after)
    pages = dict(new)
    for word in BY_PORT:
        pages.setdefault(word, snake(word))
    for path in files(".md"):
        text = open(path).read()

        def quoted(m):
            if re.search(r"[/]|\.(network|sheet|list|judge|cut|join|rs|rt|py|antt|md)\b|^`(fat-tree|silent-feed|house-costs)\b", m.group(0)):
                return m.group(0)
            return re.sub(WORD, lambda w: pages.get(w.group(0), w.group(0)), m.group(0))

        after = re.sub(r"`[^`\n]*`", quoted, text)
        if after != text:
            open(path, "w").write(after)
    with open("tools/respelled.txt", "w") as said:
        for word in sorted(new):
            said.write(f"{word} {new[word]}\n")
    print(len(new), "names")


main()
