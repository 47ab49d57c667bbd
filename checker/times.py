"""When a chamber is ready (rules.md, Time, plans and cost)."""


def first_free(chamber, minute, length):
    """The least start, from the minute on, of a free span of that length; an empty span is always free."""
    for start, stop in chamber.closures:
        if length > 0 and minute < stop and start < minute + length:
            minute = stop
    return minute


def ready(chamber, side, way, minute):
    """The minute at which the chamber, free since the given one, can take a lockage of the way: now or after a turn."""
    return minute if side == way else first_free(chamber, minute, chamber.turn) + chamber.turn
