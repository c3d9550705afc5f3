"""What fills a store before a load begins. Fragments, nodes and domains are those of the script that is given."""
from bench.scripts import LAST


def fill(script):
    for stripe in script.own_stripes:
        script.call(f"place {stripe}")


def fill_both(script):
    """Every other stripe is of the narrow code."""
    for stripe in script.own_stripes:
        script.call(f"{'place6' if stripe % 2 else 'place'} {stripe}")


def fill_nothing(script):
    """What follows is about the filling itself."""


def fill_for_moves(script):
    """Three nodes of eight are gone meanwhile and join empty, so that there is room for all that two nodes of five hold,
    which are drained. But twenty nodes are there all the time, or a stripe would find none."""
    nodes = len(script.nodes)
    away = range(max(nodes - nodes * 3 // 8, min(nodes, 20)), nodes)
    for node in away:
        script.call(f"fail {node}")
    fill(script)
    for node in away:
        script.call(f"join {node}")
    for node in range(-(-nodes * 2 // 5)):
        script.call(f"drain {node}")


def fill_and_drain(script):
    """All is to be moved, and no node takes anything."""
    fill(script)
    for node in script.own_nodes:
        script.call(f"drain {node}")


def fill_asleep(script):
    """All is to be moved; the only nodes that would take anything are down."""
    fill(script)
    for node in script.own_nodes:
        script.call(f"{'down' if node in sleepers(script) else 'drain'} {node}")


def sleepers(script):
    """Four nodes, in as many fault domains."""
    return [script.own_nodes[at * len(script.own_nodes) // 4 + at] for at in range(4)]


def fill_waiting(script):
    """Of each stripe of some groups, whose stripes have the same nodes, a fragment has no home, and others are on nodes that
    are down: it cannot be repaired before one of these comes up."""
    fill(script)
    for stripe in range(groups(script)):
        script.call(f"fail {home(script, stripe, 0)}")
        for fragment in (1, 2, LAST):
            script.call(f"down {home(script, stripe, fragment)}")


def groups(script):
    """The number of these groups. Each of the first stripes is in another one."""
    return min(max(1, len(script.own_nodes) // 128), len(script.own_stripes))


def home(script, stripe, fragment):
    return script.store.homes[stripe, fragment][0]


def fill_part(part):
    """A script places its stripes, and drains a quarter of its nodes."""
    fill(part)
    for node in part.own_nodes[:quarter(part)]:
        part.call(f"drain {node}")


def quarter(part):
    return -(-len(part.own_nodes) // 4)
