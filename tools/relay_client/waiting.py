"""Waiting for a stream, of which the process may have any number: `select` knows only those whose descriptor is below 1,024."""

import select


def is_readable(stream, seconds):
    """Whether something may be read, or the end, within this many seconds."""
    poll = select.poll()
    poll.register(stream, select.POLLIN)
    return bool(poll.poll(seconds * 1000))
