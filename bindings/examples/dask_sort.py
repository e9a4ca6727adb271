"""Sorts JSON lines as documents, by several processes or machines, into files of documents.

    python3 dask_sort.py rows.ndjson FOLDER [--workers N] [--parts N] [--plain]

The keys of a sample are the bounds of the parts. Each task reads a range of the bytes of the input,
and writes its documents to a file for each part; then a task for each part sorts it. The parts in
their order are the whole in its order: FOLDER/part-0.docs, FOLDER/part-1.docs and so on. All tasks
share the place of FOLDER, as they would share a file system. --plain takes processes of this
machine in place of Dask, whose package is Debian's python3-distributed.

FOLDER is made when all parts are there, checked and on the disk; one that has files is refused. A
worker that is killed loses nothing: its task is done again, up to DEATHS times. When the program
itself is killed there is no FOLDER: run it again, which removes what is left, the folders beside it
whose names end in .unfinished. So let one program at a time make a FOLDER.
"""
import argparse
import bisect
import contextlib
import glob
import multiprocessing
import multiprocessing.connection
import os
import random
import shutil
import sys
import threading
import uuid
from collections import Counter

from kohiblad import Document

LENGTH_BYTES = 8
CHUNKS = 16
SAMPLES = 3000
# How often a task's process may be killed.
DEATHS = 5
# How long workers may take to end, when the parts are there. The program's end ends them too.
CLOSE_SECONDS = 10


class SortError(Exception):
    """The input cannot be sorted, for the reason that the words of the error say."""


def stored(data):
    return len(data).to_bytes(LENGTH_BYTES, "big") + data


def documents_of(path):
    """The documents of a file that has each after its length."""
    with open(path, "rb") as file:
        while True:
            prefix = file.read(LENGTH_BYTES)
            if not prefix:
                return
            yield Document(file.read(int.from_bytes(prefix, "big")))


def lines_of(path, start, end):
    """The lines that begin in a range of bytes."""
    with open(path, "rb") as file:
        if start:
            file.seek(start - 1)
            file.readline()
        while file.tell() < end:
            yield file.readline()


def sample(path, size):
    """The keys of some lines of a file of so many bytes, in ascending order."""
    draw = random.Random(0)
    keys = []
    with open(path, "rb") as file:
        for _ in range(SAMPLES if size else 0):
            file.seek(draw.randrange(size))
            file.readline()
            line = file.readline()
            if line.strip():
                keys.append(Document.parse(line).key())
    return sorted(keys)


@contextlib.contextmanager
def whole_file(folder, path):
    """A file to write, which has its path when it is whole, and before that a name in the folder.

    Several tasks may write it at once, if all write the same.
    """
    scratch = f"{folder}/{uuid.uuid4().hex}"
    with open(scratch, "xb") as file:
        yield file
    os.replace(scratch, path)


def sync(path):
    """Has a file, or the names in a folder, written to the disk."""
    opened = os.open(path, os.O_RDONLY)
    try:
        os.fsync(opened)
    finally:
        os.close(opened)


def bounds_in(folder):
    """The keys at which the parts begin, but for the first."""
    with open(f"{folder}/bounds") as file:
        return [bytes.fromhex(line) for line in file]


def scattered(folder, chunk, part):
    return f"{folder}/{chunk}-{part}.docs"


def gathered(folder, part):
    return f"{folder}/parts/part-{part}.docs"


def scatter(path, start, end, folder, chunk):
    """Writes each document of a range to the file of its part, and returns how many they are."""
    bounds = bounds_in(folder)
    count = 0
    with contextlib.ExitStack() as stack:
        files = [stack.enter_context(whole_file(folder, scattered(folder, chunk, part)))
                 for part in range(len(bounds) + 1)]
        for line in lines_of(path, start, end):
            if line.strip():
                document = Document.parse(line)
                files[bisect.bisect_right(bounds, document.key())].write(stored(bytes(document)))
                count += 1
    return count


def gather(folder, part, chunks):
    """Sorts the documents of a part into a file, and returns how many it has.

    A task may be made again, also when the files that it read are gone: then its own is there.
    """
    path = gathered(folder, part)
    if not os.path.exists(path):
        names = [scattered(folder, chunk, part) for chunk in range(chunks)]
        rows = sorted((document for name in names for document in documents_of(name)),
                      key=Document.key)
        with whole_file(folder, path) as file:
            file.writelines(stored(bytes(document)) for document in rows)
    sync(path)
    return verify(path, bounds_in(folder), part)


def verify(path, bounds, part):
    """How many documents the file of a part has.

    SortError: one comes after a greater one, by the comparison of documents, or is of another part.
    """
    count, last = 0, None
    for document in documents_of(path):
        if count and document < last:
            raise SortError(f"{path} is not in order: {document} comes after {last}")
        if bisect.bisect_right(bounds, document.key()) != part:
            raise SortError(f"{path} has a document of another part: {document}")
        last = document
        count += 1
    return count


def end_with_parent():
    """Ends this process when the one that began it ends, also if that is killed."""
    multiprocessing.parent_process().join()
    os._exit(1)


def work(pipe):
    """Does the tasks that come from a pipe, and sends the result of each, or what it raised."""
    threading.Thread(target=end_with_parent, daemon=True).start()
    while True:
        try:
            function, arguments = pipe.recv()
        except EOFError:
            return
        try:
            answer = function(*arguments), None
        except Exception as error:
            answer = None, error
        pipe.send(answer)


class Worker:
    """A process that does one task at a time, and the end of the pipe to it."""

    def __init__(self):
        context = multiprocessing.get_context("spawn")
        self.pipe, other = context.Pipe()
        self._process = context.Process(target=work, args=(other,), daemon=True)
        self._process.start()
        # The process alone has its end now, so that the pipe ends with it.
        other.close()

    def end(self):
        self._process.kill()
        self._process.join()
        self.pipe.close()


class Processes:
    """Tasks in processes of this machine.

    Each has a pipe of its own: what one leaves when it is killed is in no other's way.
    """

    def __init__(self, workers):
        self._workers = [Worker() for _ in range(workers)]

    def run(self, function, arguments):
        """The number of each task and its result, as they come.

        SortError: DEATHS processes were killed that had the same task.
        """
        left = list(reversed(list(enumerate(arguments))))
        deaths = Counter()
        busy = {}
        while left or busy:
            for worker in self._workers:
                if left and worker.pipe not in busy:
                    busy[worker.pipe] = left.pop()
                    with contextlib.suppress(OSError):  # If it was killed, its pipe has an end.
                        worker.pipe.send((function, busy[worker.pipe][1]))
            for pipe in multiprocessing.connection.wait(busy):
                task, each = busy.pop(pipe)
                try:
                    result, error = pipe.recv()
                except (EOFError, OSError):
                    deaths[task] += 1
                    if deaths[task] == DEATHS:
                        raise SortError(f"{DEATHS} processes were killed that had one task")
                    print("a process was killed: its task is done again", file=sys.stderr)
                    left.append((task, each))
                    self._replace(pipe)
                    continue
                if error is not None:
                    raise error
                yield task, result

    def _replace(self, pipe):
        place = [worker.pipe for worker in self._workers].index(pipe)
        self._workers[place].end()
        self._workers[place] = Worker()

    def close(self):
        for worker in self._workers:
            worker.end()


class Cluster:
    """Tasks of a Dask cluster, here of processes that listen on 127.0.0.1."""

    def __init__(self, workers):
        import dask
        from distributed import Client, LocalCluster
        dask.config.set({"distributed.scheduler.allowed-failures": DEATHS})
        self._cluster = LocalCluster(n_workers=0, threads_per_worker=1, host="127.0.0.1",
                                     dashboard_address=None)
        self._client = Client(self._cluster)
        # After the client, for that waits for ever for a worker that is killed when it starts.
        self._cluster.scale(workers)

    def run(self, function, arguments):
        """The number of each task and its result, as they come.

        KilledWorker: more than DEATHS workers were killed that had one of the tasks.
        """
        from distributed import as_completed
        tasks = {self._client.submit(function, *each, pure=False): task
                 for task, each in enumerate(arguments)}
        for task, result in as_completed(tasks, with_results=True):
            yield tasks[task], result

    def close(self):
        from distributed import TimeoutError
        self._client.close()
        with contextlib.suppress(TimeoutError):
            self._cluster.close(timeout=CLOSE_SECONDS)


@contextlib.contextmanager
def scratch_beside(folder):
    """A folder for one sort, and nothing of earlier ones. SortError: there are results already."""
    if os.path.isdir(folder) and os.listdir(folder):
        raise SortError(f"{folder} has files: remove them, or name another folder")
    for left in glob.glob(glob.escape(folder) + ".*.unfinished"):
        shutil.rmtree(left)
    scratch = f"{folder}.{uuid.uuid4().hex}.unfinished"
    os.makedirs(f"{scratch}/parts")
    try:
        yield scratch
    finally:
        # A worker that was taken for dead may still write here. The next sort removes that.
        shutil.rmtree(scratch, ignore_errors=True)


def write_bounds(path, size, parts, folder):
    """Writes the keys at which the parts begin, of a sample, and returns how many parts there are.
    """
    keys = sample(path, size)
    bounds = [keys[len(keys) * part // parts] for part in range(1, parts)] if keys else []
    with whole_file(folder, f"{folder}/bounds") as file:
        file.writelines(b"%s\n" % it.hex().encode() for it in bounds)
    return len(bounds) + 1


def sort(engine, path, folder, parts):
    """Sorts a file into parts, and returns the number of documents in each."""
    size = os.path.getsize(path)
    ranges = [(size * it // CHUNKS, size * (it + 1) // CHUNKS) for it in range(CHUNKS)]
    ranges = [it for it in ranges if it[0] < it[1]]
    with scratch_beside(folder) as scratch:
        parts = write_bounds(path, size, parts, scratch)
        read = engine.run(scatter, [(path, *it, scratch, chunk) for chunk, it in enumerate(ranges)])
        read = sum(count for _, count in read)
        counts = [0] * parts
        for part, counts[part] in engine.run(
                gather, [(scratch, part, len(ranges)) for part in range(parts)]):
            # What was gathered is on the disk, and its count is here: no task needs these any more.
            for chunk in range(len(ranges)):
                os.unlink(scattered(scratch, chunk, part))
        if read != sum(counts):
            raise SortError(f"{read} documents were read, and {sum(counts)} are in the parts")
        sync(f"{scratch}/parts")
        os.rename(f"{scratch}/parts", folder)
        sync(os.path.dirname(folder))
    return counts


def main():
    parser = argparse.ArgumentParser(description="Sorts JSON lines as documents.")
    parser.add_argument("path", metavar="rows.ndjson")
    parser.add_argument("folder", metavar="FOLDER")
    parser.add_argument("--workers", type=int, default=4)
    parser.add_argument("--parts", type=int, default=8)
    parser.add_argument("--plain", action="store_true")
    options = parser.parse_args()
    engine = (Processes if options.plain else Cluster)(options.workers)
    try:
        counts = sort(engine, os.path.abspath(options.path), os.path.abspath(options.folder),
                      options.parts)
    except SortError as error:
        sys.exit(str(error))
    finally:
        engine.close()
    print(f"{sum(counts)} documents in {len(counts)} parts of {min(counts)} to {max(counts)}")


if __name__ == "__main__":
    main()
