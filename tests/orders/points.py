"""The points between the events of a small cluster's orders.

A point is a state, as tools/comparing/orders.py has it, with what else of the order before it shows later: where the move
came and, if offers are repeated, how many rows each row's proxy had finished when it was sequenced (a reply is given up once
its proxy has acknowledged it). Orders that meet at a point go on alike.
"""
from tools.comparing.orders import PROXIES


class Point:
    """A point, and one order that leads to it."""

    def __init__(self, state, place, received, way):
        self.state, self.place, self.received, self.way = state, place, received, way
        # the events that can come, each with the point after it
        self.ways = []
        # how an order goes on: for each of these events its part of the script, its lines, and the point after it
        self.steps = []
        # the replies and outcomes of the events before, or None while they are unknown; what is printed after the last event
        self.told, self.end = None, None

    def rest(self):
        """The events of one order from here on."""
        point, events = self, []
        while point.ways:
            event, point = point.ways[0]
            events.append(event)
        return events


def points_of(cluster, rng):
    """All points of a cluster, in the order of how many events are before them."""
    layer, found = [Point(cluster.first, None, (), ())], []
    while layer:
        found += layer
        layer = layer_after(cluster, rng.sample(layer, len(layer)))
    return found


def layer_after(cluster, layer):
    """The points one event after these, each by the way of the first of these that leads to it."""
    after = {}
    for point in layer:
        ways = cluster.ways_on(point.state)
        point.ways = [(event, point_after(cluster, after, point, event, state)) for event, state in ways]
    return list(after.values())


def point_after(cluster, after, point, event, state):
    """The point after an event, which is made unless it is there."""
    place, received = point.place, point.received
    if event[0] == "move":
        place = point.state[0]
    if event[0] == "sequence" and cluster.repeats:
        received += (point.state[-1][event[1] % PROXIES],)
    key = state, place, received
    return after.setdefault(key, Point(*key, (*point.way, event)))
