#!/usr/bin/env python3
"""Makes the example plans of this directory, and with the reference the answers to them.

    python3 make.py            write all files
    python3 make.py --check    write nothing; say which files differ from what would be written

A plan NAME is NAME.network, NAME.list and NAME.sheet, put together as NAME.judge (what the judge
reads) and NAME.cutK (what the cutter reads to cut out fragment K). Each input's answer stands in
the file of the same name with .out behind it. NAME.partK.judge is fragment K, as it was cut out,
with the list of the whole; there is none where the cut is refused. Of some plans NAME.census and NAME.partK.census are the same inputs, for
the census, and NAME.trailID and NAME.partK.trailID ask for the trail of the box ID. NAME.joinKL is fragment K followed by
fragment L, for the join; with more numbers it is two networks of which one or both were joined before (join01234 is the answer to
join0123, followed by fragment 4). NAME.joined is the network that all of them make.
"""

import pathlib
import struct
import subprocess
import sys

HERE = pathlib.Path(__file__).resolve().parent
REFERENCE = HERE.parent / "reference"

NONE = bytes(9)


def route(preference, cost, origin, tags=0):
    """The nine bytes of a route."""
    return struct.pack(">BHHHH", 1, preference, cost, origin, tags)


def policy(need=0, bar=0, clear=0, set=0, preference=None, add=1):
    flag = 0 if preference is None else 1
    return struct.pack(">HHHHBHH", need, bar, clear, set, flag, preference or 0, add)


def node(id, initial=NONE, promise=None, demand=(0, 0, 0)):
    """An own node. The demand is its number, ceiling and tags."""
    flag = 0 if promise is None else 1
    head = struct.pack(">HB", id, 0) + initial
    return head + bytes([flag]) + (promise or NONE) + struct.pack(">BHH", *demand)


def input_node(id, assumed):
    return struct.pack(">HB", id, 1) + assumed + bytes(15)


def record(body):
    """A record: length, version 1, and what follows the version."""
    return struct.pack(">IB", len(body) + 1, 1) + body


def network(policies, nodes, wires):
    """Nodes by id; wires as (from, to, policy number)."""
    edges = sorted((to, source, number) for source, to, number in wires)
    counts = struct.pack(">HHB", len(nodes), len(edges), len(policies))
    parts = policies + [nodes[id] for id in sorted(nodes)]
    parts += [struct.pack(">HHB", *edge) for edge in edges]
    return record(counts + b"".join(parts))


def route_list(held):
    entries = [struct.pack(">H", id) + held[id] for id in sorted(held)]
    return record(struct.pack(">H", len(entries)) + b"".join(entries))


def sheet(numbers, notes):
    entries = [struct.pack(">HB", id, numbers[id]) + notes[id] for id in sorted(numbers)]
    return record(struct.pack(">H", len(entries)) + b"".join(entries))


def both_ways(pairs, number=0):
    return [(a, b, number) for a, b in pairs] + [(b, a, number) for a, b in pairs]


def chain():
    """Boxes 1, 2, 3 in a row; box 3 must hold a route of cost 2 at most. Cut 1, 2 | 3."""
    nodes = {1: node(1, route(100, 0, 1)), 2: node(2), 3: node(3, demand=(1, 2, 0))}
    held = {1 + cost: route(100, cost, 1) for cost in range(3)}
    plan = network([policy()], nodes, both_ways([(1, 2), (2, 3)]))
    return plan, held, {1: 0, 2: 0, 3: 1}, held


# A box that goes straight to box 1, and one that goes through another that goes straight.
START, STRAIGHT, AROUND = route(100, 0, 1), route(100, 1, 1), route(200, 2, 1, 1)

# Straight from box 1; and from one of the others: marked and preferred, and barred when marked.
AROUND_POLICIES = [policy(), policy(bar=1, set=1, preference=200)]


def two_answers():
    """Boxes 2 and 3 each prefer to go through the other (DISAGREE). Cut 1, 2 | 3."""
    nodes = {1: node(1, START), 2: node(2), 3: node(3)}
    wires = [(1, 2, 0), (1, 3, 0), (2, 3, 1), (3, 2, 1)]
    plan = network(AROUND_POLICIES, nodes, wires)
    held = {1: START, 2: STRAIGHT, 3: AROUND}
    return plan, held, {1: 0, 2: 0, 3: 1}, held


def two_answers_mirror():
    """The same network and cut, with the other answer as list and notes."""
    plan, _, numbers, _ = two_answers()
    held = {1: START, 2: AROUND, 3: STRAIGHT}
    return plan, held, numbers, held


def two_answers_mixed():
    """The same network with one answer as the list and the other as the notes."""
    plan, held, numbers, _ = two_answers()
    return plan, held, numbers, two_answers_mirror()[3]


def bad_gadget():
    """Boxes 2, 3, 4 around box 1, each preferring to go through the next: no list passes. The
    proposal has 2 go through 3, 3 and 4 straight. Cut 1 | 2 | 3, 4."""
    nodes = {1: node(1, START), 2: node(2), 3: node(3), 4: node(4)}
    wires = [(1, 2, 0), (1, 3, 0), (1, 4, 0), (3, 2, 1), (4, 3, 1), (2, 4, 1)]
    plan = network(AROUND_POLICIES, nodes, wires)
    held = {1: START, 2: AROUND, 3: STRAIGHT, 4: STRAIGHT}
    return plan, held, {1: 0, 2: 1, 3: 2, 4: 2}, held


def quoting(add=0):
    """Boxes 1 and 2 hold a route that neither started, each by quoting the other. Cut 1 | 2."""
    plan = network([policy(add=add)], {1: node(1), 2: node(2)}, both_ways([(1, 2)]))
    held = {1: route(100, 5, 1), 2: route(100, 5, 1)}
    return plan, held, {1: 0, 2: 1}, held


def quoting_add_1():
    """The same over wires that add 1."""
    return quoting(1)


def fat_tree_wires():
    """Four pods under a spine of four: boxes 0 to 3 are the spine, each pod has two upper boxes
    (4 and 5 in the first pod) and two lower ones (6 and 7)."""
    pairs = []
    for pod in range(4):
        upper = [4 + 4 * pod, 5 + 4 * pod]
        lower = [6 + 4 * pod, 7 + 4 * pod]
        pairs += [(u, l) for u in upper for l in lower]
        pairs += [(2 * place + i, upper[place]) for place in range(2) for i in range(2)]
    return both_ways(pairs)


def fat_tree_held():
    """What each box of the fat-tree comes to hold, box 6 being the destination."""
    cost = {id: 2 for id in range(4)}
    for id in range(4, 20):
        pod, lower = (id - 4) // 4, (id - 4) % 4 >= 2
        cost[id] = {(True, False): 1, (True, True): 2, (False, False): 3, (False, True): 4}[
            (pod == 0, lower)
        ]
    cost[6] = 0
    return {id: route(100, cost[id], 6) for id in range(20)}


def fat_tree_nodes(promises):
    """The fat-tree's boxes; every one must reach box 6 at a cost of 4 at most."""
    start = {6: route(100, 0, 6)}
    return {id: node(id, start.get(id, NONE), promises.get(id), (1, 4, 0)) for id in range(20)}


def fat_tree_plan(wires, policies):
    """The fat-tree cut by pods, the spine being fragment 4."""
    held = fat_tree_held()
    numbers = {id: 4 if id < 4 else (id - 4) // 4 for id in range(20)}
    return network(policies, fat_tree_nodes({}), wires), held, numbers, held


def fat_tree():
    """The fat-tree of four pods."""
    return fat_tree_plan(fat_tree_wires(), [policy()])


def fat_tree_drop():
    """The same, but box 4 lets nothing out: only the spine's fragment has a fault."""
    wires = [(a, b, 1 if a == 4 else 0) for a, b, _ in fat_tree_wires()]
    return fat_tree_plan(wires, [policy(), policy(need=0xFFFF)])


def fat_tree_joined():
    """The fat-tree's network as its parts make it again: the boxes that cut wires leave, which are the
    spine's and the pods' upper ones, promise their notes."""
    notes = {id: held for id, held in fat_tree_held().items() if id < 4 or id % 4 < 2}
    return network([policy()], fat_tree_nodes(notes), fat_tree_wires())


def fat_tree_edited():
    """The second pod's part as its site sends it back, and what its boxes hold then. Box 8 starts with a
    route of its own and promises it; the spine's boxes 0 and 1 feed box 8 and the boxes 2 and 3 feed box 9."""
    held = {8: route(100, 1, 6), 9: route(100, 3, 6), 10: route(100, 2, 6), 11: route(100, 2, 6)}
    promises = {id: held[id] for id in (8, 9)}
    starts = {8: held[8]}
    nodes = {id: node(id, starts.get(id, NONE), promises.get(id), (1, 4, 0)) for id in held}
    nodes |= {id: input_node(id, route(100, 2, 6)) for id in range(4)}
    wires = [(a, b, number) for a, b, number in fat_tree_wires() if b in held]
    return network([policy()], nodes, wires), held


def silent_feed():
    """A studio 1, a desk 2, a guest's line 3, and an archive: its feed 4, a recorder 5 and a store 6.
    Policy 1 lets nothing through. It closes the guest's line, which has to hold none, and stands on
    the feed's wire by mistake, so that the archive holds nothing; only the desk has to hold a route.
    The notes are what the boxes hold. Cut 1, 2, 3, 4 | 5, 6."""
    nodes = {id: node(id) for id in (4, 5, 6)}
    nodes[1] = node(1, route(100, 0, 1))
    nodes[2] = node(2, demand=(1, 1, 0))
    nodes[3] = node(3, demand=(2, 0, 0))
    closed = [(2, 3), (2, 4)]
    wires = both_ways([(1, 2), (2, 3), (2, 4), (4, 5), (5, 6)])
    wires = [(a, b, 1 if (a, b) in closed else 0) for a, b, _ in wires]
    plan = network([policy(), policy(need=0xFFFF)], nodes, wires)
    held = {1: route(100, 0, 1), 2: route(100, 1, 1), 3: NONE, 4: NONE, 5: NONE, 6: NONE}
    return plan, held, {1: 0, 2: 0, 3: 0, 4: 0, 5: 1, 6: 1}, held


PLANS = {
    "chain": chain,
    "two-answers": two_answers,
    "two-answers-mirror": two_answers_mirror,
    "two-answers-mixed": two_answers_mixed,
    "bad-gadget": bad_gadget,
    "quoting": quoting,
    "quoting-add-1": quoting_add_1,
    "fat-tree": fat_tree,
    "fat-tree-drop": fat_tree_drop,
    "silent-feed": silent_feed,
}

# The plans that are counted, too.
COUNTED = {"chain", "quoting", "fat-tree", "silent-feed"}

# The boxes whose trail is asked for, by plan and, in a plan, of the whole and of fragments.
TRACED = {
    "chain": {"": [1, 3, 9], "part1.": [2, 3]},
    "two-answers": {"": [2, 3], "part1.": [3]},
    "two-answers-mirror": {"": [2, 3]},
    "bad-gadget": {"": [2]},
    "quoting": {"": [1]},
    "fat-tree": {"": [0, 6, 19], "part3.": [19], "part4.": [3]},
    "silent-feed": {"": [2, 5]},
}


# The steps in which the fat-tree's parts are joined, by the numbers of what is on either side: one after another, and by twos.
JOINED = [
    ("0", "1"),
    ("01", "2"),
    ("012", "3"),
    ("0123", "4"),
    ("4", "2"),
    ("3", "0"),
    ("42", "1"),
    ("421", "30"),
]


def reference(command, data):
    """What the reference prints."""
    run = ["cargo", "run", "--release", "--offline", "--quiet", "--", command]
    done = subprocess.run(run, cwd=REFERENCE, input=data, stdout=subprocess.PIPE, check=True)
    return done.stdout


def fragments_of(name):
    """What the cutter reads and what it answers, by fragment numbers."""
    plan, _, numbers, notes = PLANS[name]()
    asked = {k: plan + bytes([k]) + sheet(numbers, notes) for k in sorted(set(numbers.values()))}
    return {k: (data, reference("cut", data)) for k, data in asked.items()}


def joined_files():
    """The fat-tree's parts joined again, and parts that do not fit together."""
    parts = {str(k): fragment for k, (_, fragment) in fragments_of("fat-tree").items()}
    files = {}

    def join(ending, first, second):
        files[ending] = first + second
        files[f"{ending}.out"] = reference("join", first + second)
        return files[f"{ending}.out"]

    for one, other in JOINED:
        parts[one + other] = join(f"join{one}{other}", parts[one], parts[other])

    _, held, numbers, notes = fat_tree()
    joined, listed, cut_by = fat_tree_joined(), route_list(held), sheet(numbers, notes)
    files["joined.network"] = joined
    files["joined.judge"] = joined + listed
    files["joined.judge.out"] = reference("judge", joined + listed)
    for k in sorted(set(numbers.values())):
        asked = joined + bytes([k]) + cut_by
        files[f"joined.cut{k}"], files[f"joined.cut{k}.out"] = asked, reference("cut", asked)

    edited, edited_list = fat_tree_edited()
    files["edited.network"], files["edited.list"] = edited, route_list(edited_list)
    files["edited.judge"] = edited + files["edited.list"]
    files["edited.judge.out"] = reference("judge", files["edited.judge"])
    join("edited.join14", edited, parts["4"])
    join("edited.join41", parts["4"], edited)
    join("edited.join11", edited, parts["1"])
    join("drop.join04", parts["0"], fragments_of("fat-tree-drop")[4][1])
    return {f"fat-tree.{ending}": data for ending, data in files.items()}


def files_of(name):
    """All files of a plan, by name."""
    plan, held, numbers, notes = PLANS[name]()
    listed, cut_by = route_list(held), sheet(numbers, notes)
    files = {"network": plan, "list": listed, "sheet": cut_by}
    judged = {"": plan + listed}
    for k, (asked, fragment) in fragments_of(name).items():
        files[f"cut{k}"], files[f"cut{k}.out"] = asked, fragment
        if not fragment.startswith(b"refused "):
            judged[f"part{k}."] = fragment + listed
    for part, data in judged.items():
        for call in ["judge", "census"] if name in COUNTED else ["judge"]:
            files[part + call], files[f"{part}{call}.out"] = data, reference(call, data)
        for id in TRACED.get(name, {}).get(part, []):
            # The list stands behind the network of the whole or of the fragment.
            asked = data[: -len(listed)] + struct.pack(">H", id) + listed
            ending = f"{part}trail{id}"
            files[ending], files[f"{ending}.out"] = asked, reference("trail", asked)
    return {f"{name}.{ending}": data for ending, data in files.items()}


def main():
    files = {}
    for name in PLANS:
        files.update(files_of(name))
    files.update(joined_files())
    if sys.argv[1:] != ["--check"]:
        for name, data in files.items():
            (HERE / name).write_bytes(data)
        return 0
    kept = {path.name for path in HERE.iterdir()} - {"make.py", "README.md"}
    wrong = {name for name in files if name in kept and (HERE / name).read_bytes() != files[name]}
    wrong |= kept ^ set(files)
    for name in sorted(wrong):
        print(f"differs: {name}")
    return 1 if wrong else 0


if __name__ == "__main__":
    sys.exit(main())
