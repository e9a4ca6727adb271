"""The examples of stores that sort bytes: bindings/examples/stores, each with its own server."""
import json
import os
import random
import shutil
import subprocess
import sys
import tempfile
import time
import unittest
import urllib.parse
import urllib.request
from decimal import Decimal

from kohiblad import Document

EXAMPLES = os.path.join(os.path.dirname(os.path.abspath(__file__)), "..", "..", "examples",
                        "stores")
# Debian's packages are for its own Python.
PYTHONS = [sys.executable, "/usr/bin/python3"]
ROWS = 3000
SECONDS = 60

CLICKHOUSE_CONFIG = """<yandex>
<logger><level>warning</level><log>{folder}/log</log><errorlog>{folder}/errors</errorlog></logger>
<http_port>8123</http_port><tcp_port>9000</tcp_port><listen_host>{host}</listen_host>
<path>{folder}/data/</path><tmp_path>{folder}/scratch/</tmp_path>
<users_config>users.xml</users_config><default_profile>default</default_profile>
<default_database>default</default_database><mark_cache_size>5368709120</mark_cache_size>
</yandex>"""
CLICKHOUSE_USERS = """<yandex><profiles><default></default></profiles>
<users><default><password></password><networks><ip>127.0.0.0/8</ip></networks>
<profile>default</profile><quota>default</quota></default></users>
<quotas><default></default></quotas></yandex>"""


def python_with(*modules):
    """A Python that has these modules, or None."""
    program = "import " + ", ".join(modules)
    for python in PYTHONS:
        if os.access(python, os.X_OK) and not subprocess.run(
                [python, "-c", program], stdout=subprocess.DEVNULL,
                stderr=subprocess.DEVNULL).returncode:
            return python
    return None


def program_of(name):
    """The path of a server's program, or None."""
    return shutil.which(name, path=os.environ.get("PATH", "") + ":/usr/sbin")


def rows():
    rng = random.Random(11)
    return [{"id": number, "city": rng.choice(["Oslo", "Os", "Bergen", "Tromsø", ""]),
             "price": Decimal(rng.randrange(-5000, 20000)) / 100} for number in range(ROWS)]


def environment_of(python):
    """The environment of a program, for this Python or another."""
    if python == sys.executable:
        return dict(os.environ)
    # The extension module may be for another version.
    return dict(os.environ, KOHIBLAD_NATIVE="0")


def lines_of(given):
    return "".join(json.dumps(it, default=float) + "\n" for it in given)


class Server:
    """A server's process, which can be begun again when it was killed."""

    def __init__(self, arguments, folder, name):
        self.arguments = arguments
        self.log = os.path.join(folder, name + ".log")
        self.folder = folder
        self.begin()

    def begin(self):
        with open(self.log, "ab") as log:
            self.process = subprocess.Popen(self.arguments, stdout=log, stderr=log,
                                            cwd=self.folder)

    def is_dead(self):
        return self.process.poll() is not None

    def end(self):
        self.process.kill()
        self.process.wait()


class StoreTest(unittest.TestCase):
    def setUp(self):
        folder = tempfile.TemporaryDirectory()
        self.addCleanup(folder.cleanup)
        self.folder = folder.name
        # All of 127.0.0.0/8 is this machine: no other server listens there.
        self.host = "127.{}.{}.{}".format(*(random.SystemRandom().randrange(20, 250)
                                            for _ in range(3)))

    def need(self, found, package):
        if not found:
            self.skipTest(f"needs the Debian package {package}")
        return found

    def start(self, arguments, is_ready, name="server"):
        """Starts a server, which is ended after the test, and waits until it answers."""
        server = Server(arguments, self.folder, name)
        self.addCleanup(server.end)
        end = time.monotonic() + SECONDS
        while not is_ready():
            if server.is_dead() or time.monotonic() > end:
                with open(server.log, errors="replace") as log:
                    self.fail(f"{arguments[0]} did not start: {log.read()[-2000:]}")
            time.sleep(0.1)
        return server

    def answers_http(self, port, path="", data=None):
        try:
            urllib.request.urlopen(f"http://{self.host}:{port}/{path}", data, timeout=5).close()
            return True
        except OSError:
            return False

    def run_example(self, python, name, *arguments, given=b""):
        done = self.try_example(python, name, *arguments, given=given)
        self.assertEqual((done.returncode, done.stderr.decode()), (0, ""))
        return done.stdout.decode()

    def try_example(self, python, name, *arguments, given=b""):
        return subprocess.run([python, os.path.join(EXAMPLES, name), *arguments], input=given,
                              stdout=subprocess.PIPE, stderr=subprocess.PIPE, timeout=SECONDS,
                              env=environment_of(python))

    def check_refused(self, words, *arguments, given=b""):
        """The example ends with 1, and its words on one line have these in it."""
        done = self.try_example(*arguments, given=given)
        error = done.stderr.decode()
        self.assertEqual((done.returncode, error.count("\n")), (1, 1), error)
        self.assertIn(words, error)

    def check_ranges(self, python, name, place):
        """What the example finds is what a filter finds, in the order of the prices."""
        for city, low, high in (("Oslo", "50", "100"), ("Os", "-1000", "1000"), ("", "-7.5", "0"),
                                ("Tromsø", "199.99", "200"), ("Oslo", "5", "5"),
                                ("none", "0", "9")):
            found = [json.loads(it, parse_float=Decimal) for it in
                     self.run_example(python, name, place, "find", city, low, high).splitlines()]
            expected = [it for it in self.rows if it["city"] == city
                        and Decimal(low) <= it["price"] < Decimal(high)]
            self.assertEqual([it["price"] for it in found], sorted(it["price"] for it in expected))
            self.assertEqual(sorted(it["id"] for it in found), sorted(it["id"] for it in expected))

    def check_store(self, python, name, place):
        """Loads of which each is found, and one of the same lines again, which changes nothing."""
        self.rows = rows()
        self.assertIn("0 rows are stored", self.run_example(python, name, place, "load"))
        parts = [self.rows[:1000], self.rows[1000:1001], self.rows[1001:]]
        for first, part in zip((0, 1000, 1001), parts):
            told = self.run_example(python, name, place, "load", given=lines_of(part).encode())
            self.assertIn(f"{len(part)} rows are stored, with numbers from ", told)
            self.assertNotIn("earlier load", told)
        self.check_ranges(python, name, place)
        again = lines_of(parts[2]).encode()
        self.assertIn("as in an earlier load of these lines",
                      self.run_example(python, name, place, "load", given=again))
        self.check_all(python, name, place, self.rows)
        # Another load may have rows that an earlier one has.
        more = self.rows[:10]
        self.run_example(python, name, place, "load", given=b"\n" + lines_of(more).encode())
        self.check_all(python, name, place, self.rows + more)
        self.check_refused("line 2: InvalidJson", python, name, place, "load", given=b"{}\n{\n{}")
        self.check_refused("there is no command put", python, name, place, "put")

    def check_all(self, python, name, place, expected):
        """These rows are all that the example has, in the order of their cities and prices."""
        found = [json.loads(it, parse_float=Decimal)
                 for it in self.run_example(python, name, place, "all").splitlines()]
        self.assertEqual([(it["city"].encode(), it["price"]) for it in found],
                         sorted((it["city"].encode(), it["price"]) for it in expected))
        self.assertEqual(sorted(it["id"] for it in found), sorted(it["id"] for it in expected))


class AwayTest(StoreTest):
    """Servers that are not there, for longer than the examples wait."""
    PROGRAM = ("import sys; sys.path.insert(0, sys.argv.pop(1)); import common, {0} as store; "
               "common.SECONDS = 1; common.main(store.load, store.find)")

    def check_away(self, python, name, words):
        done = subprocess.run([python, "-c", self.PROGRAM.format(name), EXAMPLES, f"{self.host}:7",
                               "all"], stdout=subprocess.PIPE, stderr=subprocess.PIPE,
                              timeout=SECONDS, env=environment_of(python))
        # It does not try again where the first try took all of the time.
        *first, last = done.stderr.decode().splitlines()
        self.assertEqual((done.returncode, done.stdout, len(first) < 2), (1, b"", True))
        for line in [*first, "tries again for 1 seconds: " + last]:
            self.assertRegex(line, f"^tries again for 1 seconds: .*{words}")

    def test_etcd(self):
        self.check_away(sys.executable, "etcd_store", "Connection refused")

    def test_clickhouse(self):
        self.check_away(sys.executable, "clickhouse_store", "Connection refused")

    def test_redis(self):
        python = self.need(python_with("redis.cluster"), "python3-redis")
        self.check_away(python, "redis_store", "Redis Cluster cannot be connected")


class LmdbTest(StoreTest):
    def test_ranges_of_two_members(self):
        python = self.need(python_with("lmdb"), "python3-lmdb")
        place = os.path.join(self.folder, "store")
        self.check_refused("No such file", python, "lmdb_store.py", place, "all")
        self.check_store(python, "lmdb_store.py", place)

    def test_keys_that_are_cut(self):
        python = self.need(python_with("lmdb"), "python3-lmdb")
        place, long = os.path.join(self.folder, "store"), "x" * 600
        self.rows = [{"id": it, "city": long + tail, "price": Decimal(price)}
                     for it, (tail, price) in enumerate([("b", 5), ("a", 9), ("a", 7), ("b", 1)])]
        self.run_example(python, "lmdb_store.py", place, "load",
                         given=lines_of(self.rows).encode())
        found = self.run_example(python, "lmdb_store.py", place, "find", long + "a", "0", "9.5")
        self.assertEqual([json.loads(it)["id"] for it in found.splitlines()], [2, 1])


class RedisStore(StoreTest):
    name, kept = "redis_store.py", ["--appendonly", "yes", "--appendfsync", "always"]

    def ask(self, port, *words):
        return subprocess.run([self.client, "-h", self.host, "-p", str(port), *words],
                              stdout=subprocess.PIPE, stderr=subprocess.DEVNULL).stdout

    def start_redis(self, options, count=3):
        """Starts servers of a cluster, self.servers, and returns where one listens."""
        server = self.need(program_of("redis-server"), "redis-server")
        self.client = self.need(program_of("redis-cli"), "redis-tools")
        self.python = self.need(python_with("redis.cluster"), "python3-redis")
        self.ports = range(7001, 7001 + count)
        self.servers = [
            self.start([server, "--port", str(port), "--bind", self.host, "--save", "", *options,
                        "--cluster-enabled", "yes", "--cluster-config-file", f"nodes{port}",
                        "--cluster-announce-ip", self.host, "--dir", self.folder,
                        "--appenddirname", f"changes{port}"],
                       lambda: self.ask(port, "PING") == b"PONG\n", str(port))
            for port in self.ports]
        # The command CLUSTER of redis-cli would have at least three.
        for number, port in enumerate(self.ports):
            slots = 16384 * number // count, 16384 * (number + 1) // count - 1
            self.ask(port, "CLUSTER", "ADDSLOTSRANGE", *map(str, slots))
            self.ask(port, "CLUSTER", "SET-CONFIG-EPOCH", str(number + 1))
            self.ask(7001, "CLUSTER", "MEET", self.host, str(port))
        end = time.monotonic() + SECONDS
        while not all(b"cluster_state:ok" in self.ask(port, "CLUSTER", "INFO")
                      and self.ask(port, "CLUSTER", "NODES").count(b" connected") == count
                      for port in self.ports):
            self.assertLess(time.monotonic(), end, "the cluster is not ready")
            time.sleep(0.3)
        return f"{self.host}:7001"


class RedisTest(RedisStore):
    def test_ranges_over_three_servers(self):
        place = self.start_redis(self.kept)
        self.check_refused("there are no bounds", self.python, self.name, place, "all")
        self.check_store(self.python, self.name, place)
        self.assertTrue(all(int(self.ask(port, "DBSIZE")) > 2 for port in self.ports))

    def test_servers_that_would_lose_rows(self):
        place = self.start_redis(["--appendonly", "yes", "--appendfsync", "always"], 2)
        self.ask(7002, "CONFIG", "SET", "appendfsync", "everysec")
        self.check_refused(f"{self.host}:7002 would lose rows when it is killed: "
                           "set appendfsync to always, where it has everysec",
                           self.python, self.name, place, "load", given=b"{}")
        self.ask(7002, "CONFIG", "SET", "appendonly", "no")
        self.check_refused("set appendonly to yes, where it has no",
                           self.python, self.name, place, "load", given=b"{}")


class EtcdStore(StoreTest):
    name, python = "etcd_store.py", sys.executable

    def start_etcd(self, *options):
        """Starts a server, self.servers, and returns where it listens."""
        server = self.need(program_of("etcd"), "etcd-server")
        client, peer = f"http://{self.host}:2379", f"http://{self.host}:2380"
        self.servers = [self.start(
            [server, "--data-dir", os.path.join(self.folder, "data"), *options,
             "--listen-client-urls", client, "--advertise-client-urls", client,
             "--listen-peer-urls", peer, "--initial-advertise-peer-urls", peer,
             "--initial-cluster", f"default={peer}"],
            lambda: self.answers_http(2379, "v3/kv/range", b'{"key":"eA=="}'))]
        return f"{self.host}:2379"


class EtcdTest(EtcdStore):
    def test_ranges_of_two_members(self):
        self.check_store(self.python, self.name, self.start_etcd("--unsafe-no-fsync"))

    def test_great_documents(self):
        place = self.start_etcd("--unsafe-no-fsync")
        self.rows = [{"id": it, "city": "Oslo", "price": Decimal(5), "text": "a" * 300_000}
                     for it in range(12)]
        given = lines_of(self.rows).encode()
        self.run_example(self.python, self.name, place, "load", given=given)
        too_great = json.dumps({"text": "a" * 1_573_000}).encode() + b"\n"
        self.check_refused("row 1 has 1573", self.python, self.name, place, "load",
                           given=b"{}\n" + too_great)
        self.check_all(self.python, self.name, place, self.rows)

    def test_reason_of_a_server(self):
        place = self.start_etcd("--unsafe-no-fsync", "--max-request-bytes", "50000")
        self.check_refused("etcdserver: request is too large", self.python, self.name, place,
                           "load", given=json.dumps({"text": "a" * 60_000}).encode())

    def test_rows_of_another_layout(self):
        place = self.start_etcd("--unsafe-no-fsync")
        self.answers_http(2379, "v3/kv/put", b'{"key": "cm93cy94", "value": "eA=="}')
        self.check_refused("there are rows, and no number of the next", self.python, self.name,
                           place, "load", given=b"{}")


class ClickHouseStore(StoreTest):
    name, python = "clickhouse_store.py", sys.executable

    def ask(self, query, data=b"\n"):
        words = urllib.parse.urlencode({"query": query})
        with urllib.request.urlopen(f"http://{self.host}:8123/?{words}", data,
                                    timeout=SECONDS) as answer:
            return answer.read()

    def start_clickhouse(self):
        """Starts a server, self.servers, and returns where it listens."""
        server = self.need(program_of("clickhouse-server"), "clickhouse-server")
        config = os.path.join(self.folder, "config.xml")
        with open(config, "w") as file:
            file.write(CLICKHOUSE_CONFIG.format(folder=self.folder, host=self.host))
        with open(os.path.join(self.folder, "users.xml"), "w") as file:
            file.write(CLICKHOUSE_USERS)
        self.servers = [self.start([server, f"--config-file={config}"],
                                   lambda: self.answers_http(8123))]
        return f"{self.host}:8123"

    def kohiblad(self, *arguments, given):
        return subprocess.run([sys.executable, "-m", "kohiblad", *arguments], input=given,
                              stdout=subprocess.PIPE, check=True).stdout


class ClickHouseTest(ClickHouseStore):
    def test_ranges_of_two_members(self):
        place = self.start_clickhouse()
        self.check_refused("DB::Exception", self.python, self.name, place, "all")
        self.check_store(self.python, self.name, place)

    def test_rows_of_the_command(self):
        """What `keys --rowbinary` writes are the keys and documents that a server reads."""
        self.start_clickhouse()
        documents = self.kohiblad("encode", given=lines_of(rows()[:100]).encode())
        members = "--member", "city", "--member", "price"
        self.ask("CREATE TABLE plain (key String, doc String) ENGINE = Memory")
        self.ask("INSERT INTO plain FORMAT RowBinary",
                 self.kohiblad("keys", *members, "--rowbinary", given=documents))
        self.assertEqual(self.ask("SELECT lower(hex(key)) FROM plain"),
                         self.kohiblad("keys", *members, given=documents))
        self.assertEqual(
            [bytes.fromhex(it.decode()) for it in self.ask("SELECT hex(doc) FROM plain").split()],
            [bytes(Document.parse(it)) for it in lines_of(rows()[:100]).splitlines()])


if __name__ == "__main__":
    unittest.main()
