"""The key by which an operator who lost a connection comes back to the boards that were opened with it. It is in the target of the
request, so whatever writes targets down, such as a proxy's log, must leave it out."""

import secrets


def new_key():
    """A random key: 32 characters of those that a key may have."""
    return secrets.token_urlsafe(24)


def target_of(key):
    """What a connection with this key asks for; one without a key if it is None."""
    return "/" if key is None else f"/?key={key}"
