"""Runs a program, and kills processes when it has come to a line for the n-th time.

    python3 kill_at.py PLAN program.py ARGUMENTS

PLAN is a JSON object. "lines" is a file to write: how often each line was reached of the functions
that are in the program and beside it. Or "place" and "count" say where processes are killed,
"seconds" how much later, and "processes" which: 0 is the program itself.
"""
import json
import os
import runpy
import signal
import sys
import threading
from collections import Counter


def kill_all(processes):
    for it in processes:
        try:
            os.kill(it or os.getpid(), signal.SIGKILL)
        except ProcessLookupError:
            pass  # It was killed before.


def tracer(plan, folder, counts):
    """What sys.settrace takes, for the functions of the files in a folder."""
    def trace(frame, event, argument):
        code = frame.f_code
        if not code.co_filename.startswith(folder) or code.co_name == "<module>":
            return None
        if event == "line":
            place = f"{code.co_filename[len(folder):]}:{frame.f_lineno}"
            counts[place] += 1
            if place == plan.get("place") and counts[place] == plan["count"]:
                timer = threading.Timer(plan["seconds"], kill_all, [plan["processes"]])
                timer.daemon = True
                timer.run() if not plan["seconds"] else timer.start()
        return trace

    return trace


def main():
    plan, program = json.loads(sys.argv[1]), os.path.abspath(sys.argv[2])
    sys.argv = [program, *sys.argv[3:]]
    sys.path[0] = os.path.dirname(program)
    counts = Counter()
    sys.settrace(tracer(plan, sys.path[0] + os.sep, counts))
    try:
        runpy.run_path(program, run_name="__main__")
    finally:
        sys.settrace(None)
        if "lines" in plan:
            with open(plan["lines"], "w") as file:
                json.dump(counts, file)


if __name__ == "__main__":
    main()
