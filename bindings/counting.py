"""What the tests of the bindings share: commands that are run, and how many of their tests passed."""

import os
import pathlib
import re
import shutil
import subprocess
import threading

TOP = pathlib.Path(__file__).resolve().parent.parent
COUNTS = re.compile(r"^(\d+) passed, (\d+) failed$", re.M)

_passed, _failed, _left_out = 0, 0, []
# Some tests are run side by side, and counted one by one.
_counting = threading.Lock()


def count(what, good, bad=0):
    global _passed, _failed
    with _counting:
        _passed, _failed = _passed + good, _failed + bad
        print(f"{what}: {good} passed, {bad} failed", flush=True)


def run(words, at, **env):
    """Runs a command in a folder, and gives its status and what it said. A variable that is None is taken away."""
    variables = {name: value for name, value in {**os.environ, **env}.items() if value is not None}
    how = {"stdout": subprocess.PIPE, "stderr": subprocess.STDOUT, "stdin": subprocess.DEVNULL, "text": True}
    ran = subprocess.run([str(word) for word in words], cwd=at, env=variables, **how)
    return ran.returncode, ran.stdout


def succeeds(what, words, at, **env):
    """Whether a command ends with 0. One that doesn't is a failed test, and what it said is shown."""
    status, said = run(words, at, **env)
    if status:
        print(said)
        count(what, 0, 1)
    return status == 0


def compare(what, words, wanted, at, **env):
    """Runs a command, and compares what it prints."""
    status, said = run(words, at, **env)
    good = status == 0 and said == wanted
    if not good:
        print(said)
    count(what, int(good), int(not good))


def run_counted(what, words, at, counts=COUNTS, **env):
    """Runs a command whose output has its counts, and adds them. One that fails, or has none, has failed."""
    status, said = run(words, at, **env)
    found = [tuple(map(int, it)) for it in counts.findall(said)]
    good, bad = sum(it[0] for it in found), sum(it[1] for it in found)
    if status or bad or not good:
        print(said)
    count(what, good, bad or int(status != 0 or not good))


def has(what, command):
    """Whether the machine has a command. What needs one that it hasn't is left out."""
    if shutil.which(command):
        return True
    leave_out(what, f"there is no {command} here")
    return False


def leave_out(what, why):
    _left_out.append(f"LEFT OUT {what}: {why} (bindings/install)")


def told():
    """The last lines of a run: what was left out, and the counts. Gives the status to end with."""
    print("\n".join([*_left_out, f"{_passed} passed, {_failed} failed"]))
    return int(_failed != 0)


def quoted(python, document, at, **env):
    """Runs the lines of Python that a document shows, as they stand, block by block. A line that ends with a comment
    prints what it says. A block that imports what this Python lacks is left out."""
    what = f"{document.relative_to(TOP)}, its lines of Python"
    blocks = re.findall(r"^```python\n(.*?)^```$", document.read_text(encoding="utf-8"), re.M | re.S)
    for block in blocks:
        imports = "\n".join(re.findall(r"^(?:import|from) .*$", block, re.M)) or "pass"
        status, said = run([python, "-c", imports], at, **env)
        lacks = re.search(r"^ModuleNotFoundError: No module named '(?!itree)(\S+)'$", said, re.M)
        if status and lacks:
            leave_out(f"{what}, by {python}", f"it has no {lacks.group(1)}")
            continue
        wanted = "".join(f"{it}\n" for it in re.findall(r"  # (.*)$", block, re.M))
        compare(what, [python, "-c", block], wanted, at, **env)
    if not blocks:
        print("there are none")
        count(what, 0, 1)
