"""Runs the built program, and compares what it leaves with what it must; of modules, with what the interpreter in Python says."""

import os
import subprocess
import tempfile
import threading
from concurrent.futures import ThreadPoolExecutor

from lib import interpreter, module_validator

TOP = os.path.join(os.path.dirname(os.path.abspath(__file__)), "..", "..")
SCRIPT = os.path.join(TOP, "sledge")
PROGRAM = os.path.join(TOP, "crates", "sledge", "out", "sledge")
BUILD_LIMIT, RUN_LIMIT = 4 * 3600, 120  # seconds that a build, and that a run may take


class Case:
    """A module with a name, a request body and a budget."""

    def __init__(self, name, data, body=b"", budget=10**6):
        self.name, self.data, self.body, self.budget = name, data, body, budget

    def wanted(self):
        """Exit status, standard output and standard error."""
        module = module_validator.decode(self.data)
        assert module_validator.violation(module) is None, self.name
        refusal = interpreter.link_refusal(module, 256)
        if refusal:
            return 5, b"", "module %d 0 %d\n" % refusal
        verdict, prices = interpreter.run(module, self.body, self.budget)
        return 0, interpreter.reply_text(verdict), "units %d\n" % sum(prices)


def build():
    """Builds the program where it is not built."""
    subprocess.run([SCRIPT, "--version"], check=True, stdout=subprocess.DEVNULL, timeout=BUILD_LIMIT)


def lay(folder, contents):
    """Writes files of these names and bytes."""
    for name, data in contents.items():
        with open(os.path.join(folder, name), "wb") as file:
            file.write(data)


def run(words, folder, **streams):
    """Exit status, standard output and standard error of the program with these words in this folder; None for a stream of one's own."""
    done = subprocess.run([PROGRAM, *words], cwd=folder, timeout=RUN_LIMIT, **{"stdout": subprocess.PIPE, "stderr": subprocess.PIPE, **streams})
    return done.returncode, done.stdout, done.stderr


def measured(words, folder, limit=600):
    """What a run used (`ru_utime`, `ru_maxrss` and so on), its exit status, standard output and standard error. It is ended at the limit, in seconds."""
    with tempfile.TemporaryFile() as out, tempfile.TemporaryFile() as notes:
        child = subprocess.Popen(words, cwd=folder, stdin=subprocess.DEVNULL, stdout=out, stderr=notes)
        end = threading.Timer(limit, child.kill)
        end.start()
        _, status, usage = os.wait4(child.pid, 0)
        end.cancel()
        child.returncode = os.waitstatus_to_exitcode(status)
        out.seek(0), notes.seek(0)
        return usage, child.returncode, out.read(), notes.read()


def differs(name, wanted, got):
    """Whether they differ, which is printed."""
    if wanted != got:
        print(f"{name}:\n  wanted {wanted!r}\n  got    {got!r}")
    return wanted != got


def ran(folder, number, case):
    names = ["%s%d" % (kind, number) for kind in ("module", "body")]
    lay(folder, dict(zip(names, (case.data, case.body))))
    status, out, notes = run(["invoke", *names, str(case.budget)], folder)
    return status, out, notes.decode()


def compare(cases):
    """Prints each case that differs, and answers how many did."""
    build()
    failed = 0
    with tempfile.TemporaryDirectory() as folder, ThreadPoolExecutor(os.cpu_count()) as pool:
        results = pool.map(lambda item: ran(folder, *item), enumerate(cases))
        for case, got in zip(cases, results):
            failed += differs("%s, budget %d" % (case.name, case.budget), case.wanted(), got)
    print("%d passed, %d failed" % (len(cases) - failed, failed))
    return failed
