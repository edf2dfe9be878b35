"""A client for `worm serve`, of Python's standard library alone.

    from worm import Connection, Get, Put

    with Connection("127.0.0.1", 7070) as worm:
        worm.put(b"Jos", b"1")                        # True: the key wasn't there
        worm.get(b"Jos")                              # b"1"
        for key, value in worm.scan(prefix=b"Jo"):    # pairs by ascending keys
            print(key, value)
        worm.pipeline([Put(b"a", b"2"), Get(b"a")])   # [True, b"2"]

Keys and values are bytes: a key has 1 to 255 of them, a value at most 1,024. What is no key or value is a TypeError or a
ValueError before anything is sent. A reply that is no answer is raised as a `WormError`; `pipeline` alone gives it back in
its place, since other requests of the same call were served.

A connection whose request wasn't answered to the end, as after a timeout or an interrupt, is closed, and every later call
raises ConnectionError: a reply that comes late is never taken for another request's.

A server gives each connection a worker until it ends. Where all workers are taken it accepts a connection and doesn't
answer, which is a TimeoutError after 10 seconds, or after the `timeout` that was given.
"""

from ._connection import Connection
from ._errors import AgainError, FullError, NoMemoryError, RequestError, UnknownReplyError, WormError
from ._pool import Pool
from ._requests import Answer, Delete, Get, Pair, Put, Request, Scan, escape, unescape

__version__ = "1.0.0"

__all__ = [
    "AgainError",
    "Answer",
    "Connection",
    "Delete",
    "FullError",
    "Get",
    "NoMemoryError",
    "Pair",
    "Pool",
    "Put",
    "Request",
    "RequestError",
    "Scan",
    "UnknownReplyError",
    "WormError",
    "escape",
    "unescape",
]
