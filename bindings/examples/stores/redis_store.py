"""Documents in a Redis Cluster, with an index of two members: city, then price.

    python3 redis_store.py HOST:PORT load < rows.ndjson
    python3 redis_store.py HOST:PORT find CITY LOW HIGH      the rows with LOW <= price < HIGH
    python3 redis_store.py HOST:PORT all                     all rows, by city and then price

A sorted set is on one server, so the index is in PARTS of them. Where each begins is decided by the
keys of a sample of the first load. Members of one score are sorted by their bytes.

    bounds          the keys at which parts 1, 2, .. begin: a document, an array in hexadecimal
    {loads}:next    the number of the next row
    {loads}:first   SHA-256 of a load's lines -> the number of its first row
    {N}:rows        row number -> the document, on the server of its entry
    {N}:index       the entries of part N: key of city and price, row number

Each command may be made twice, and a row is there before its entry. So a load goes on when a server
is back, and one that was killed is run again: then each row is there once. When the program has
said that the rows are stored, a server that is killed has them on its disk. A replica that takes
its place may lack the last ones, for Redis answers before it sends to replicas: run the loads of
that time again. HOST:PORT is any of the servers, or several with commas: one may be away.

The package is Debian's python3-redis.
"""
import bisect
import logging
import random

from common import ROW_BYTES, Away, StoreError, again, batches, main, number_of
from kohiblad import Document
from redis.cluster import ClusterNode, RedisCluster
from redis.exceptions import (AskError, AuthenticationError, AuthorizationError, ClusterError,
                              ConnectionError, ReadOnlyError, RedisClusterException, ResponseError,
                              TimeoutError, TryAgainError)

PARTS = 12
SAMPLE = 1000
AT_ONCE = 500
BYTES_AT_ONCE = 1 << 24
ANSWER_SECONDS = 5
KEPT = {"appendonly": "yes", "appendfsync": "always"}


class Cluster:
    """Commands to a Redis Cluster, each of which is made again while a server is away."""

    def __init__(self, place):
        self._places = [it.rsplit(":", 1) for it in place.split(",")]
        self._client = None

    def ask(self, name, *arguments, **options):
        """The answer to a command, by the name of the client's method. StoreError: refused."""
        return again(lambda: self._once(lambda it: getattr(it, name)(*arguments, **options)))

    def refuse_unkept(self):
        """StoreError: a server does not have each change on its disk when it answers."""
        for name, settings in again(lambda: self._once(settings_of)):
            for setting, value in KEPT.items():
                if settings.get(setting) != value:
                    raise StoreError(f"{name} would lose rows when it is killed: set {setting} to "
                                     f"{value}, where it has {settings.get(setting)}")

    def _once(self, call):
        try:
            if self._client is None:
                nodes = [ClusterNode(host, int(port)) for host, port in self._places]
                self._client = RedisCluster(startup_nodes=nodes, socket_timeout=ANSWER_SECONDS,
                                            socket_connect_timeout=ANSWER_SECONDS)
            return call(self._client)
        except (AuthenticationError, AuthorizationError) as error:
            raise StoreError(f"Redis refused: {error}") from error
        except (ConnectionError, TimeoutError, ClusterError, RedisClusterException, AskError,
                ReadOnlyError, TryAgainError, IndexError) as error:
            # A client of redis 4 does not find its way after a server was away: the next is new.
            self._client = None
            raise Away(f"{type(error).__name__}: {error}") from error
        except ResponseError as error:
            raise StoreError(f"Redis refused: {error}") from error


def settings_of(client):
    """The name of each server and those of its settings by which changes are on its disk."""
    return [(node.name, client.get_redis_connection(node).config_get("append*"))
            for node in client.get_primaries()]


def bounds_of(cluster):
    """The keys at which the parts begin, but for the first. StoreError: nothing was loaded."""
    stored = cluster.ask("get", "bounds")
    if stored is None:
        raise StoreError("there are no bounds, so nothing was loaded")
    return [bytes.fromhex(it) for it in Document(stored).value()]


def set_bounds(cluster, keys):
    """Stores bounds by a sample of keys, unless there are some."""
    sample = sorted(random.Random(0).sample(keys, min(SAMPLE, len(keys))))
    bounds = [sample[len(sample) * part // PARTS].hex() for part in range(1, PARTS)]
    cluster.ask("set", "bounds", bytes(Document.of(bounds)), nx=True)


def first_number(cluster, given):
    """The number of a load's first row, and whether it was given now."""
    first = cluster.ask("hget", "{loads}:first", given.name)
    if first is not None:
        return int(first), False
    # Where the next line is not reached, these numbers are left out.
    first = cluster.ask("incrby", "{loads}:next", len(given.rows)) - len(given.rows)
    cluster.ask("hsetnx", "{loads}:first", given.name, first)
    return int(cluster.ask("hget", "{loads}:first", given.name)), True


def load(place, given):
    """Stores the rows, and returns what a user is told."""
    cluster = Cluster(place)
    cluster.refuse_unkept()
    if given.rows:
        set_bounds(cluster, [key for key, _ in given.rows])
    first, is_new = first_number(cluster, given)
    parts = {}
    bounds = bounds_of(cluster) if given.rows else []
    for number, (key, data) in enumerate(given.rows, first):
        entry = key + number_of(number)
        parts.setdefault(bisect.bisect_right(bounds, entry), []).append((entry, data))
    for part, rows in parts.items():
        for some in batches(rows, AT_ONCE, BYTES_AT_ONCE):
            cluster.ask("hset", f"{{{part}}}:rows",
                        mapping={entry[-ROW_BYTES:]: data for entry, data in some})
            cluster.ask("zadd", f"{{{part}}}:index", {entry: 0 for entry, _ in some})
    return given.report(first, is_new)


def find(place, low, high):
    """The documents whose keys are from low on and below high, in their order, part by part."""
    cluster = Cluster(place)
    bounds = bounds_of(cluster)
    for part in range(bisect.bisect_right(bounds, low), bisect.bisect_left(bounds, high) + 1):
        yield from find_in_part(cluster, part, low, high)


def find_in_part(cluster, part, low, high):
    while True:
        entries = cluster.ask("zrangebylex", f"{{{part}}}:index", b"[" + low, b"(" + high,
                              start=0, num=AT_ONCE)
        if not entries:
            return
        numbers = [entry[-ROW_BYTES:] for entry in entries]
        for entry, data in zip(entries, cluster.ask("hmget", f"{{{part}}}:rows", numbers)):
            if data is None:
                raise StoreError(f"part {part} has an entry and no row: {entry.hex()}")
            yield Document(data)
        # The least entry above the last one.
        low = entries[-1] + b"\0"


# The client logs each error, of which a user is told by `again`.
logging.getLogger("redis").addHandler(logging.NullHandler())
if __name__ == "__main__":
    main(load, find)
