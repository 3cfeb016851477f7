#!/usr/bin/env python3
"""Respells this repository's own definitions, constructors and lemmas in snake case, as the kit's library has its words.

usage: python3 tools/respell.py     at the top of the repository, once, right after the kit's port.py
It goes by whole words, a dash or a dot ending one, in sources, definitions, proofs, must-fail edits and documents.
Strings, inputs and outputs hold none of these words. Functions of src/ keep their names; where a definition would get the name of a
function that stands in the same file, it gets another (OTHER), or is imported under another (BESIDE).
"""
import pathlib
import re

WORDS = """
afterChange afterCounts afterKey allMerged allSeated answerBy answerTo asLeaf asParent atBlank atKeyed atLeaf atNode atTop badTree behindBytes
blankLeaf blankParent blankSeen blankTree bothLeft bothRight boxesBy boxesBytes boxesIn boxesOf boxesSent bySide capOrder carriedOut cellBytes
changeAsked changeKeys changeOf changeRefusal chipWith commitAsked commitBy commitOf committingOn composeRefusal countableAt countsAgree countsBytes
drawsOf droppedFor encodeTree endedBy epochOf epochOver epochSecret epochSlot fileHead fileHeadBytes fileOf fileRefusal firstEpoch firstHalves
forgetHeld founderBytes freshIn freshKey fromLeft fromRight getD givenBy halvesGiven hasGiven hasParts hasSealed hasUnmerged headBytes headerBytes
heightOf heldAt heldDown hexByte hexDigit hexText inDepth inLeft inRight initIn initKey initKeys initSlot isApart isBlank isGiven isIn isLevel
isMerging isNewcomer isOpen isStranger isThere isUnmerged joinedKeys joiningOn keyBytes keyFrom keyHeight keyNumber keySlot keysBytes laidBy lastEpoch
leafApart leafAt leafBytes leafCell leafKey leafKeys leafMerged leafNumbered leafOf leavesBefore ledBy leftNone leftPut letterChange letterFor
letterOf levelAfter lineBytes linesOf makeRefusal mapLaid mapLeaf mapOrder mapParent mapSealed mapTarget mapTree mapVault maxDepth maxLines maxMembers
membersBytes messageAt messageBy messageOf messageRefusal newcomerKey nextLevel nodeKey nodeKeyHeld nodeKeys nodeOver nodesBytes onLeft onRight
oneByte oneNumber openKnown openUnknown orNext orderText ordersFor ordersIn ordersOf ordersOn ordersText ownCommit ownKey parentAt parentBytes
parentCell parentLaid parentOver partTree pathAt pathBoxes pathKey pathOf pathOver pathSecret pathSlot purposeNumber purposeOf putB readAfter readIn
readOn refusalBytes refusalText reportBytes reportOf rightCounts rightNone rightOf rightPut rightSome riseGiving rootOf runBytes runFile sameSecrets
sealedBox sealedBytes sealedTo sealedUp secretKeys seedSlot sentLetter shutUnknown slotCount slotsAfter someGiven someMerged someRead standIn
stayingOn takingOn talkSlot theTree threeNumbers treeSeen twoNumbers underLeft underRight unmergedAt verdictRows viaLeft viaRight wayWord welcomedOn
wellFormed wholeLeaf wholeNode
""".split()

# Other words than a name's own in snake case: the name of a function that stands where the definition is cited, or the library's own word.
OTHER = {
    "getD": "get_or",
    "countsAgree": "counts_match",
    "keySlot": "slot_of_key",
    "pathSlot": "slot_of_path",
    "forgetHeld": "held_forgotten",
    "keyHeight": "height_of_key",
    "keyNumber": "number_of_key",
    "hexDigit": "digit_of_hex",
    "wayWord": "word_of_way",
    "isMerging": "merges",
}

# Done first, (file, old, new): lemmas that would fall together with a definition of the same file,
BEFORE = [
    ("crates/commits/proofs/Counting.antt", "next_level", "next_level-agrees"),
    ("crates/theory/proofs/Opened.antt", "some_read", "some_read-found"),
    ("crates/theory/proofs/Opened.antt", "is_open", "is_open-sound"),
    # and one word of the library for one thing.
    ("crates/messages/specs/Take.antt", "i. get_or", "i. slice_index_or"),
]

# Constructors that were spelled with a dash.
DASHED = {"no-founder": "no_founder", "bad-founder": "bad_founder"}

# Definitions imported under another name, where a function of that name stands in the file: (file, definition, name there).
BESIDE = [
    ("crates/messages/src/handset.rt", "commit_of", "commit_meant", "commitOf"),
    ("crates/orders/src/committer.rt", "change_of", "change_meant", "changeOf"),
]

WORD = re.compile(r"[A-Za-z0-9_'\u03b1-\u03c9\u1d30]+")


def snake(word):
    return OTHER.get(word) or re.sub(r"(?<=[a-z0-9])([A-Z])", lambda m: "_" + m[1].lower(), word)


NEW = {w: snake(w) for w in WORDS}


def whole(name):
    return re.compile(r"(?<![A-Za-z0-9_'-])" + re.escape(name) + r"(?![A-Za-z0-9_'-])")


def main():
    files = [p for p in pathlib.Path("crates").rglob("*") if p.suffix in (".rt", ".antt", ".edit") and "out" not in p.parts]
    files += [*pathlib.Path("docs").glob("*.md"), pathlib.Path("README.md")]
    changed = 0
    for p in files:
        old = new = p.read_text(encoding="utf-8")
        for f, a, b in BEFORE:
            if str(p) == f:
                new = whole(a).sub(b, new)
        for f, name, there, was in BESIDE:
            if str(p) == f:
                new = "\n".join(
                    whole(was).sub(f"{name} as {there}" if line.startswith("ghost use") else there, line) for line in new.split("\n")
                )
        for a, b in DASHED.items():
            new = whole(a).sub(b, new)
        new = WORD.sub(lambda m: NEW.get(m[0], m[0]), new)
        if new != old:
            p.write_text(new, encoding="utf-8")
            changed += 1
    print(f"{changed} files respelled")


if __name__ == "__main__":
    main()
