"""Kills the programs and the servers of the examples at random places, and compares all rows.

    python3 kills.py [SECONDS [SEED]]

Each example of bindings/examples/stores stores loads for SECONDS, 1 if it is not given, and at
least once for each choice of what is killed: the program, a server, or both, when the program is at
a line that is drawn. A load that was killed is run again; a server that was killed is begun again.
In the end the rows are those of all loads, each once; after each kill of the program they have
those of all loads that ended. dask_sort.py sorts while its workers or the program are killed, and
makes what the command `sort` makes. The places are drawn with SEED, 1 if it is not given.
"""
import glob
import itertools
import json
import os
import random
import signal
import subprocess
import sys
import time
import unittest
from collections import Counter

import test_sort
import test_stores

FOLDER = os.path.dirname(os.path.abspath(__file__))
ROWS = 300
# How long one run may take.
SECONDS_OF_RUN = 150
seconds, seed = 1.0, 1


class Kills:
    """The test of a store. A subclass has `begin`, which starts its servers, and returns its place.
    """
    servers = []

    def test_all_rows_are_there(self):
        self.random = random.Random(f"{seed} {self.name}")
        self.place = self.begin()
        self.expected = Counter()
        self.killed = Counter()
        self.lines = {"load": self.record("load", self.next_rows())}
        self.lines["all"] = self.record("all")
        end = time.monotonic() + seconds
        victims = [["program"]]
        if self.servers:
            victims += [["server"], ["server", "program"]]
        for number, each in enumerate(itertools.cycle(victims)):
            if number >= max(2, len(victims)) and time.monotonic() > end:
                break
            self.load(each)
        self.assertEqual(self.found(), self.expected)
        print(f"{self.name}: {sum(self.expected.values())} rows, {self.killed['program']} programs "
              f"and {self.killed['server']} servers killed", file=sys.stderr)

    def next_rows(self):
        """Lines of rows that are in no other load, which are expected from now on."""
        first = sum(self.expected.values())
        rows = [{"id": it, "city": self.random.choice(["Oslo", "Bergen", ""]),
                 "price": self.random.randrange(100)} for it in range(first, first + ROWS)]
        self.expected.update(map(values_of, rows))
        return "".join(json.dumps(it) + "\n" for it in rows)

    def load(self, victims):
        """Stores rows while victims are killed, again if the program was, until it has ended."""
        before = Counter(self.expected)
        given = self.next_rows()
        status, _ = self.run_program(self.plan("load", victims), "load", given)
        if status == -signal.SIGKILL:
            self.killed["program"] += 1
            found = self.found()
            self.assertEqual(before - found, Counter(), "rows of an earlier load are lost")
            self.assertEqual(found - self.expected, Counter(), "rows are there twice")
            status, _ = self.run_program({}, "load", given)
        self.assertEqual(status, 0, self.errors)

    def found(self):
        """How often each row is there, while in half of all times a server is killed."""
        victims = ["server"] if self.servers and self.random.random() < 0.5 else []
        status, output = self.run_program(self.plan("all", victims), "all")
        self.assertEqual(status, 0, self.errors)
        return Counter(values_of(json.loads(it)) for it in output.splitlines())

    def plan(self, command, victims):
        """Where the victims are killed: at any line that the command reaches, and a bit later."""
        if not victims:
            return {}
        place, count = self.random.choice(sorted(self.lines[command].items()))
        server = self.random.choice(self.servers).process.pid if self.servers else 0
        return {"place": place, "count": self.random.randrange(count) + 1,
                "seconds": self.random.choice([0, self.random.random() / 30]),
                "processes": [0 if it == "program" else server for it in victims]}

    def record(self, command, given=""):
        """How often each line of the program is reached by a command."""
        path = os.path.join(self.folder, "lines.json")
        status, _ = self.run_program({"lines": path}, command, given)
        self.assertEqual(status, 0, self.errors)
        with open(path) as file:
            return json.load(file)

    def run_program(self, plan, command, given=""):
        """The status of the program and its output. A server that is dead is begun again."""
        paths = [os.path.join(self.folder, it) for it in ("input", "output", "errors")]
        with open(paths[0], "w") as file:
            file.write(given)
        with open(paths[0]) as source, open(paths[1], "w") as output, \
                open(paths[2], "w") as errors:
            process = subprocess.Popen(
                [self.python, os.path.join(FOLDER, "kill_at.py"), json.dumps(plan),
                 os.path.join(test_stores.EXAMPLES, self.name), self.place, command],
                stdin=source, stdout=output, stderr=errors,
                env=test_stores.environment_of(self.python))
        self.addCleanup(process.kill)
        end = time.monotonic() + SECONDS_OF_RUN
        while process.poll() is None:
            self.assertLess(time.monotonic(), end, f"{command} does not end after {plan}")
            self.revive()
            time.sleep(0.02)
        with open(paths[1]) as output, open(paths[2]) as errors:
            self.errors = f"{errors.read()}\nafter {plan}"
            return process.returncode, output.read()

    def revive(self):
        for server in self.servers:
            if server.is_dead():
                self.killed["server"] += 1
                server.begin()


class LmdbKills(Kills, test_stores.StoreTest):
    name = "lmdb_store.py"

    def begin(self):
        self.python = self.need(test_stores.python_with("lmdb"), "python3-lmdb")
        return os.path.join(self.folder, "store")


class RedisKills(Kills, test_stores.RedisStore):
    def begin(self):
        place = self.start_redis(self.kept)
        # The first of these may be away.
        return ",".join([place, *(f"{self.host}:{it}" for it in self.ports[1:])])


class EtcdKills(Kills, test_stores.EtcdStore):
    def begin(self):
        return self.start_etcd()


class ClickHouseKills(Kills, test_stores.ClickHouseStore):
    def begin(self):
        return self.start_clickhouse()


class SortKills(test_sort.SortFolder):
    # Of parts, and of ranges of the input.
    PARTS, CHUNKS = 6, 16

    def test_by_processes(self):
        self.check_kills(sys.executable, 2, "--plain")

    def test_by_dask(self):
        python = test_stores.python_with("distributed")
        if not python:
            self.skipTest("needs the Debian package python3-distributed")
        self.check_kills(python, 1)

    def check_kills(self, python, least, *options):
        """Sorts at least so often, while workers are killed and every other time the program."""
        self.random = random.Random(f"{seed} {options}")
        self.write([{"id": it, "name": f"customer {it % 977}"} for it in range(2000)])
        self.arguments = [python, test_sort.PROGRAM, self.source, self.parts, "--workers", "2",
                          "--parts", str(self.PARTS), *options]
        self.environment = test_stores.environment_of(python)
        killed = Counter()
        end = time.monotonic() + seconds
        for number, victim in enumerate(itertools.cycle(["worker", "program"])):
            if number >= least and time.monotonic() > end:
                break
            status, count = self.sort_and_kill(victim, 1 if number < 2 else 2)
            killed[victim] += count
            if victim == "program" and count:
                self.assertEqual((status, os.path.exists(self.parts)), (-signal.SIGKILL, False))
                status, _ = self.sort_and_kill("worker", 0)
            self.assertEqual(status, 0, self.errors)
            self.check_parts()
            # Nothing else is left beside the parts.
            self.assertEqual(sorted(os.listdir(self.folder)), ["errors", "parts", "rows.ndjson"])
            self.remove_parts()
        print(f"{' '.join(['dask_sort.py', *options])}: {killed['worker']} workers and "
              f"{killed['program']} programs killed", file=sys.stderr)

    def sort_and_kill(self, victim, most):
        """Sorts, kills at most so often, each when a number of files was made that is drawn, and
        returns the status and how often.
        """
        places = sorted(self.random.randrange(1, self.PARTS * (self.CHUNKS + 1))
                        for _ in range(most))
        log = os.path.join(self.folder, "errors")
        with open(log, "w") as errors:
            process = subprocess.Popen(self.arguments, stdout=errors, stderr=errors,
                                       env=self.environment)
        self.addCleanup(process.kill)
        made, killed = set(), 0
        before = set(self.files())
        end = time.monotonic() + SECONDS_OF_RUN
        while process.poll() is None:
            self.assertLess(time.monotonic(), end, "a sort does not end")
            made.update(set(self.files()) - before)
            if killed < most and len(made) >= places[killed]:
                killed += self.kill(process.pid, victim)
            time.sleep(0.002)
        with open(log) as errors:
            self.errors = errors.read()
        return process.returncode, killed

    def files(self):
        """What the tasks of a sort have made so far."""
        return glob.glob(f"{self.parts}.*.unfinished/**/*.docs", recursive=True)

    def kill(self, process, victim):
        """Kills a program or one of its workers, and returns how many, which may be 0."""
        workers = workers_of(process)
        if victim == "worker":
            if not workers:
                return 0
            os.kill(self.random.choice(workers), signal.SIGKILL)
            return 1
        os.kill(process, signal.SIGKILL)
        end = time.monotonic() + SECONDS_OF_RUN
        while any(is_alive(it) for it in workers):
            self.assertLess(time.monotonic(), end, "workers are left")
            time.sleep(0.01)
        return 1


def values_of(row):
    return row["id"], row["city"], row["price"]


def status_of(process):
    """The state and the parent of a process, or None if there is none."""
    try:
        with open(f"/proc/{process}/stat") as file:
            return file.read().rpartition(")")[2].split()[:2]
    except (FileNotFoundError, ProcessLookupError):
        return None


def is_alive(process):
    status = status_of(process)
    return status is not None and status[0] != "Z"


def workers_of(process):
    """The numbers of the processes that a program began for its tasks."""
    found = []
    for path in glob.glob("/proc/[0-9]*"):
        number = int(os.path.basename(path))
        status = status_of(number)
        if status and int(status[1]) == process and status[0] != "Z":
            with open(f"{path}/cmdline", "rb") as file:
                if b"spawn_main" in file.read():
                    found.append(number)
    return sorted(found)


if __name__ == "__main__":
    if len(sys.argv) > 1:
        seconds = float(sys.argv[1])
    if len(sys.argv) > 2:
        seed = int(sys.argv[2])
    unittest.main(argv=sys.argv[:1], verbosity=2)
