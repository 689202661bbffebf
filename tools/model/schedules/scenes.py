"""Scenes worked out by hand: a tree, some calls on it, the kinds of all their events, the last reply, and the content then."""
from .schedule import Schedule, insert, remove

# In a scene a kind is its letter, a small one where the event failed: a word that isn't free, or isn't the remembered one, and an
# upgrade that fails. An event that is skipped has none.


def keys(put, left, apart):
    """A tree: so many keys are put from 0 on, each so far from the one before; so many are left when the last ones are taken."""
    return " ".join([f"{it * apart}={it}" for it in range(put)] + [f"-{it * apart}" for it in range(left, put)])


def on_tree(tree):
    """A schedule that puts the pairs of a tree one after another, and takes the keys behind a minus again."""
    made = Schedule()
    for word in tree.split():
        if word[0] == "-":
            made.whole(0, remove(int(word[1:])))
        else:
            made.whole(0, insert(*map(int, word.split("="))))
    return made


# A full leaf below seven nodes; and the key 0 in a leaf of its own below them, of which the last has that leaf alone, and the
# one before has few children once it has lost this node.
PATH = "16777216=24 4294967296=32 1099511627776=40 281474976710656=48 72057594037927936=56"
DEEP = f"0=0 1=1 2=2 3=3 256=8 65536=16 {PATH}"
DEEP_DOWN = f"0=0 256=8 65536=16 131072=17 196608=18 262144=19 {PATH} -262144 -256"

SCENES = [
    # an inner node is full
    (
        "0=0 256=1 512=2 768=3",
        "start 1 insert 1024 4, step 1 15",
        "STRCTCRCUUAAWOLF",
        "1 ok none",
        "0=0 256=1 512=2 768=3 1024=4",
    ),
    # closures, each by its answer
    ("1=42 2=2", "start 1 present 1, step 1 7, answer 1 none, step 1 4", "STRCTCRCQUWLF", "1 42 none", "2=2"),
    ("1=42", "start 1 present 2, step 1 8", "STRCTCRCF", "1 none", "1=42"),
    ("1=42", "start 1 orinsert 2 7, step 1 7, answer 1 8, step 1 4", "STRCTCRCQUWLF", "1 ok none", "1=42 2=8"),
    ("1=42", "start 1 orinsert 2 7, step 1 7, answer 1 none, step 1 4", "STRCTCRCQUWLF", "1 ok none", "1=42 2=7"),
    ("1=42", "start 1 orinsert 1 7, step 1 7, answer 1 none, step 1 4", "STRCTCRCQUWLF", "1 ok 42", "1=7"),
    ("", "start 1 orinsert 1 7, step 1 3, answer 1 8, step 1 5", "STRCQUAWLF", "1 ok none", "1=8"),
    ("1=42", "start 1 orinsert 256 7, step 1 5, answer 1 8, step 1 8", "STRCTCQUUAAWLLF", "1 ok none", "1=42 256=8"),
    # the first answer doesn't count where the upgrade fails, where the last check fails, and where the second upgrade fails
    (
        "1=42",
        "start 1 present 1, step 1 7, answer 1 50, fail 1, step 1 7, answer 1 60, step 1 4",
        "STRCTCRCQuTRCTCRCQUWLF",
        "1 42 60",
        "1=60",
    ),
    (
        "1=42",
        "start 1 present 1, step 1 7, answer 1 42, start 2 insert 1 43, step 2 11, step 1 8, answer 1 43, step 1 2",
        "STRCTCRCQSTRCTCRCUWLFcTRCTCRCQCF",
        "1 43 43",
        "1=43",
    ),
    (
        "1=42",
        "start 1 present 1, step 1 7, answer 1 none, step 1, fail 1, step 1 8, answer 1 60, step 1 4",
        "STRCTCRCQUuLTRCTCRCQUWLF",
        "1 42 60",
        "1=60",
    ),
    # nothing is asked the second time, since the key was removed; or it has another value
    (
        "1=42",
        "start 1 present 1, step 1 7, answer 1 50, start 2 remove 1, step 2 13, step 1 5",
        "STRCTCRCQSTRCTCRCUUWOLFuTRCF",
        "1 none",
        "",
    ),
    (
        "1=42",
        "start 1 present 1, step 1 7, answer 1 50, start 2 insert 1 43, step 2 11, step 1 8, answer 1 51, step 1 4",
        "STRCTCRCQSTRCTCRCUWLFuTRCTCRCQUWLF",
        "1 43 51",
        "1=51",
    ),
    # removals and exchanges
    ("1=42 2=2", "start 1 remove 1, step 1 11", "STRCTCRCUWLF", "1 42", "2=2"),
    ("1=42", "start 1 remove 256, step 1 6", "STRCTCF", "1 none", "1=42"),
    ("1=42", "start 1 cas 2 42 43, step 1 8", "STRCTCRCF", "1 err none", "1=42"),
    # a leaf can't be locked while its parent is: the parent is unlocked, and the removal starts from the root again
    ("1=42", "start 1 remove 1, step 1 8, fail 1, step 1 14, reclaim 1", "STRCTCRCUuLTRCTCRCUUWOLFX", "1 42", ""),
    # calls that clean up: a leaf that goes, and with it the node that it empties; two cleanups and never a third, though the node
    # above has none left, which goes with the next removal that empties it
    (
        keys(17, 13, 1),
        "start 1 present 12, step 1 7, answer 1 none, step 1 17",
        "STRCTCRCQUWLTRCTCRCUUAWOLF",
        "1 12 none",
        "0=0 1=1 2=2 3=3 4=4 5=5 6=6 7=7 8=8 9=9 10=10 11=11",
    ),
    (
        keys(17, 13, 1),
        "start 1 cas 12 12 none, step 1 24",
        "STRCTCRCUWLTRCTCRCUUAWOLF",
        "1 ok none",
        "0=0 1=1 2=2 3=3 4=4 5=5 6=6 7=7 8=8 9=9 10=10 11=11",
    ),
    (
        "1=1 256=2",
        "start 1 remove 1, step 1 17, start 1 remove 256, step 1 29",
        "STRCTCRCTCRCUUWOLFSTRCTCRCTCRCUUWOLTRCTCRCUUWOLF",
        "1 2",
        "",
    ),
    (
        "0=0 256=1 65536=2 131072=3 196608=4 262144=5 -262144 -256",
        "start 1 remove 0, step 1 50",
        "STRCTCRCTCRCTCRCUUWOLTRCTCRCTCRCUUWOLTRCTCRCUUAWOLF",
        "1 0",
        "65536=2 131072=3 196608=4",
    ),
    (
        "0=0 256=1 65536=2 -256 -65536",
        "start 1 remove 0, step 1 49",
        "STRCTCRCTCRCTCRCUUWOLTRCTCRCTCRCUUWOLTRCTCRCUUWOLF",
        "1 0",
        "",
    ),
    (
        "0=0 256=1 65536=2 16777216=3 -256 -65536 -16777216",
        "start 1 remove 0, step 1 61, start 1 get 0, step 1 8, start 1 insert 0 9, step 1 12, start 1 remove 0, step 1 29",
        "STRCTCRCTCRCTCRCTCRCUUWOLTRCTCRCTCRCTCRCUUWOLTRCTCRCTCRCUUWOLFSTRCTCRCFSTRCTCRCUAWLFSTRCTCRCTCRCUUWOLTRCTCRCUUWOLF",
        "1 9",
        "",
    ),
    # other calls keep a node small; only a removal cleans up, and the next one does where one has failed
    (
        keys(17, 13, 1),
        "start 1 remove 12, step 1 17, fail 1, step 1, start 1 insert 0 99, step 1 11, start 1 remove 99, step 1 8, "
        "start 1 present 1, step 1 7, answer 1 98, step 1 4, start 1 remove 11, step 1 24",
        "STRCTCRCUWLTRCTCRCuFSTRCTCRCUWLFSTRCTCRCFSTRCTCRCQUWLFSTRCTCRCUWLTRCTCRCUUAWOLF",
        "1 11",
        "0=99 1=98 2=2 3=3 4=4 5=5 6=6 7=7 8=8 9=9 10=10",
    ),
    (
        keys(17, 13, 1),
        "start 1 remove 12, step 1 18, fail 1, step 1 2, start 1 insert 12 99, step 1 11, start 1 remove 12, step 1 24",
        "STRCTCRCUWLTRCTCRCUuLFSTRCTCRCUWLFSTRCTCRCUWLTRCTCRCUUAWOLF",
        "1 99",
        "0=0 1=1 2=2 3=3 4=4 5=5 6=6 7=7 8=8 9=9 10=10 11=11",
    ),
    # the root is locked by another call, or the node is; a word has changed, twice
    (
        keys(17, 13, 1),
        "start 1 remove 12, step 1 10, start 2 insert 72057594037927936 9, step 2 4, step 1 2, step 2 4",
        "STRCTCRCUWLSTRCUtFAWLF",
        "2 ok none",
        "0=0 1=1 2=2 3=3 4=4 5=5 6=6 7=7 8=8 9=9 10=10 11=11 72057594037927936=9",
    ),
    (
        keys(17, 13, 1),
        "start 1 remove 12, step 1 10, start 2 insert 12 9, step 2 8, step 1 5, step 2 3",
        "STRCTCRCUWLSTRCTCRCUTRCtFWLF",
        "2 ok none",
        "0=0 1=1 2=2 3=3 4=4 5=5 6=6 7=7 8=8 9=9 10=10 11=11 12=9",
    ),
    (
        keys(17, 13, 1),
        "start 1 remove 12, step 1 12, start 2 insert 72057594037927936 9, step 2 8, step 1 2",
        "STRCTCRCUWLTRSTRCUAWLFcF",
        "2 ok none",
        "0=0 1=1 2=2 3=3 4=4 5=5 6=6 7=7 8=8 9=9 10=10 11=11 72057594037927936=9",
    ),
    (
        keys(17, 13, 1),
        "start 1 remove 12, step 1 15, start 2 insert 12 9, step 2 11, torn 1 node 77, step 1 2",
        "STRCTCRCUWLTRCTCSTRCTCRCUWLFRcF",
        "2 ok none",
        "0=0 1=1 2=2 3=3 4=4 5=5 6=6 7=7 8=8 9=9 10=10 11=11 12=9",
    ),
    # the key has no node any more, leads to a leaf, to a node with another prefix; another leaf is in the node
    (
        "256=1 512=2 -512",
        "start 1 remove 256, step 1 16, start 2 insert 256 9, step 2 12, start 2 remove 256, step 2 29, step 1 4",
        "STRCTCRCTCRCUUWOLSTRCTCRCUAWLFSTRCTCRCTCRCUUWOLTRCTCRCUUWOLFTRCF",
        "2 9",
        "",
    ),
    (
        "256=1 512=2 -512",
        "start 1 remove 256, step 1 16, start 2 insert 256 9, step 2 12, start 2 remove 256, step 2 29, "
        "start 2 insert 256 8, step 2 8, step 1 6",
        "STRCTCRCTCRCUUWOLSTRCTCRCUAWLFSTRCTCRCTCRCUUWOLTRCTCRCUUWOLFSTRCUAWLFTRCTCF",
        "2 ok none",
        "256=8",
    ),
    (
        "256=1 512=2 -512",
        "start 1 remove 256, step 1 16, start 2 insert 256 9, step 2 12, start 2 remove 256, step 2 29, "
        "start 2 insert 65536 8, step 2 8, start 2 insert 65792 8, step 2 13, step 1 6",
        "STRCTCRCTCRCUUWOLSTRCTCRCUAWLFSTRCTCRCTCRCUUWOLTRCTCRCUUWOLFSTRCUAWLFSTRCTCUUAAWLLFTRCTCF",
        "2 ok none",
        "65536=8 65792=8",
    ),
    (
        "256=1 512=2 -512",
        "start 1 remove 256, step 1 16, start 2 insert 512 9, step 2 12, step 1 12",
        "STRCTCRCTCRCUUWOLSTRCTCRCUAWLFTRCTCRCUULLF",
        "2 ok none",
        "512=9",
    ),
    # another call has put one more key into the leaf, so nothing is due
    (
        keys(17, 13, 1),
        "start 1 remove 12, step 1 10, start 2 insert 20 9, step 2 11, step 1 12",
        "STRCTCRCUWLSTRCTCRCUWLFTRCTCRCUULLF",
        "2 ok none",
        "0=0 1=1 2=2 3=3 4=4 5=5 6=6 7=7 8=8 9=9 10=10 11=11 20=9",
    ),
    # the longest call of 40 events, and from where another one has changed its leaf 43
    (
        DEEP,
        "start 1 orinsert 4 4, step 1 31, answer 1 9, step 1 7",
        "STRCTCRCTCRCTCRCTCRCTCRCTCRCTCRCQUUAWOLF",
        "1 ok none",
        "0=0 1=1 2=2 3=3 4=9 256=8 65536=16 16777216=24 4294967296=32 1099511627776=40 281474976710656=48 "
        "72057594037927936=56",
    ),
    (
        DEEP,
        "start 1 orinsert 4 4, step 1 31, start 2 insert 1 77, step 2 35, answer 1 9, step 1 34, answer 1 9, step 1 7",
        "STRCTCRCTCRCTCRCTCRCTCRCTCRCTCRCSTRCTCRCTCRCTCRCTCRCTCRCTCRCTCRCUWLFQUuLTRCTCRCTCRCTCRCTCRCTCRCTCRCTCRCQUUAWOLF",
        "1 ok none",
        "0=0 1=77 2=2 3=3 4=9 256=8 65536=16 16777216=24 4294967296=32 1099511627776=40 281474976710656=48 "
        "72057594037927936=56",
    ),
    # the longest call that cleans up, of 100 and of 103
    (
        DEEP_DOWN,
        "start 1 present 0, step 1 31, answer 1 none, step 1 67",
        "STRCTCRCTCRCTCRCTCRCTCRCTCRCTCRCQUUWOLTRCTCRCTCRCTCRCTCRCTCRCTCRCUUWOLTRCTCRCTCRCTCRCTCRCTCRCUUAWOLF",
        "1 0 none",
        "65536=16 131072=17 196608=18 16777216=24 4294967296=32 1099511627776=40 281474976710656=48 72057594037927936=56",
    ),
    (
        DEEP_DOWN,
        "start 1 present 0, step 1 31, start 2 insert 0 77, step 2 35, answer 1 none, step 1 34, answer 1 none, step 1 67",
        "STRCTCRCTCRCTCRCTCRCTCRCTCRCTCRCSTRCTCRCTCRCTCRCTCRCTCRCTCRCTCRCUWLFQUuLTRCTCRCTCRCTCRCTCRCTCRCTCRCTCRCQUUWOLTRC"
        "TCRCTCRCTCRCTCRCTCRCTCRCUUWOLTRCTCRCTCRCTCRCTCRCTCRCUUAWOLF",
        "1 77 none",
        "65536=16 131072=17 196608=18 16777216=24 4294967296=32 1099511627776=40 281474976710656=48 72057594037927936=56",
    ),
    # the leaf grows while a get is on the way to it: its slot stays until the get has ended
    (
        "0=0 1=1 2=2 3=3",
        "start 1 get 2, step 1 5, start 2 insert 4 4, step 2 14, reclaim 1, torn 1 none, step 1 9, reclaim 1",
        "STRCTCSTRCTCRCUUAWOLFRcTRCTCRCFX",
        "1 2",
        "0=0 1=1 2=2 3=3 4=4",
    ),
    # a torn read names a slot that is free again, a private node, and a slot that there never was while a writer holds the leaf
    (
        "0=0 1=1 2=2 3=3",
        "start 2 insert 4 4, step 2 14, reclaim 1, start 1 get 2, step 1 5, start 2 insert 0 9, step 2 11, "
        "torn 1 node 1, step 1 9",
        "STRCTCRCUUAWOLFXSTRCTCSTRCTCRCUWLFRcTRCTCRCF",
        "1 2",
        "0=9 1=1 2=2 3=3 4=4",
    ),
    (
        "0=0 1=1 2=2 3=3",
        "start 2 insert 4 4, step 2 14, start 1 get 2, step 1 5, start 2 insert 256 5, step 2 8, torn 1 node 3, "
        "step 2 5, step 1 13",
        "STRCTCRCUUAWOLFSTRCTCSTRCTCUUARAWLLFcTRCTCRCTCRCF",
        "1 2",
        "0=0 1=1 2=2 3=3 4=4 256=5",
    ),
    (
        "1=42",
        "start 1 get 1, step 1 5, start 2 insert 1 43, step 2 8, torn 1 node 77, step 1 5, step 2 3, step 1 8",
        "STRCTCSTRCTCRCURcTRCtWLFTRCTCRCF",
        "1 43",
        "1=43",
    ),
    # it names a slot that was reclaimed and used anew in the meantime
    (
        "0=0 1=1 2=2 3=3",
        "start 2 insert 4 4, step 2 14, start 1 get 2, step 1 5, reclaim 1, start 2 insert 256 5, step 2 13, "
        "torn 1 node 1, step 1 13",
        "STRCTCRCUUAWOLFSTRCTCXSTRCTCUUAAWLLFRcTRCTCRCTCRCF",
        "1 2",
        "0=0 1=1 2=2 3=3 4=4 256=5",
    ),
    # it names the retired node, a slot that there never was, the root, and the leaf itself
    *(
        (
            "0=0 1=1 2=2 3=3",
            "start 2 insert 4 4, step 2 14, start 1 get 2, step 1 5, start 2 insert 0 9, step 2 11, "
            f"torn 1 node {slot}, step 1 9",
            "STRCTCRCUUAWOLFSTRCTCSTRCTCRCUWLFRcTRCTCRCF",
            "1 2",
            "0=9 1=1 2=2 3=3 4=4",
        )
        for slot in (1, 77, 0, 2)
    ),
    # events that aren't enabled, between those of two gets
    (
        "",
        "start 7 get 1, start 7 get 2, step 8, step 7, start 8 get 256, step 8, step 7, reclaim 0, step 7, step 8, step 7 2, "
        "step 8",
        "STSTRCRFC",
        "8 none",
        "",
    ),
]

# How many keys are put one after another, how many of them are left, and whether one more removal leaves few enough for a smaller
# form: 3, 12 and 36 in nodes of 16, 48 and 256 places.
BORDERS = [
    (2, 2, False),
    (4, 4, False),
    (5, 5, False),
    (5, 4, True),
    (17, 14, False),
    (17, 13, True),
    (49, 38, False),
    (49, 37, True),
]
# The keys' distance, and the course of the last one's removal without a cleanup and with one: in a leaf, and in an inner node.
BORDERS_OF = [
    (1, "STRCTCRCUWLF", "STRCTCRCUWLTRCTCRCUUAWOLF"),
    (256, "STRCTCRCTCRCUUWOLF", "STRCTCRCTCRCUUWOLTRCTCRCUUAWOLF"),
]


def borders():
    for apart, stays, shrinks in BORDERS_OF:
        for put, left, is_due in BORDERS:
            course = shrinks if is_due else stays
            key = (left - 1) * apart
            lines = f"start 1 remove {key}, step 1 {len(course) - 1}"
            content = " ".join(f"{it * apart}={it}" for it in range(left - 1))
            yield keys(put, left, apart), lines, course, f"1 {left - 1}", content
