"""What tools/build_quick and tools/build_program share: the kit, the program's crates, and processes that end with their caller."""
import contextlib
import os
import re
import shutil
import signal
import subprocess
import sys
import time

PROGRAM = "dqnode"
TARGET = "x86_64-unknown-linux-gnu"
# The statuses: something is missing that a build needs; a build failed.
MISSING, FAILED = 69, 70
# The signals by which a user ends a build.
SIGNALS = (signal.SIGINT, signal.SIGTERM, signal.SIGHUP)


class Stop(Exception):
    """Why nothing is built, and the status that says so."""

    def __init__(self, why, status=FAILED):
        super().__init__(why)
        self.status = status


def say(text):
    print(f"dqnode: {text}", file=sys.stderr, flush=True)


def clock(began):
    """Returns the minutes and seconds since a time."""
    minutes, seconds = divmod(int(time.monotonic() - began), 60)
    return f"{minutes}:{seconds:02}"


def read(path):
    with open(path, encoding="utf-8") as it:
        return it.read()


def number_in(file, pattern):
    """Returns the number that the pattern finds in a file, or None."""
    try:
        return int(re.search(pattern, read(file))[1])
    except (OSError, TypeError):
        return None


def find_kit(checkout, parts):
    """Returns the folder of the kit whose `rt` is on the path, if it has these parts."""
    rt = shutil.which("rt")
    if not rt:
        raise Stop("the command rt of Rattle's kit is not on the path, and the program can't be built without it: README.md names the kit", MISSING)
    kit = os.path.dirname(os.path.dirname(os.path.realpath(rt)))
    for it in ["KIT-ID", "WHAT", "rlibs", *parts]:
        if not os.path.exists(f"{kit}/{it}"):
            raise Stop(f"the kit in {kit} has no {it}: it is incomplete, or not the kit that README.md names", MISSING)
    wanted = re.search(r"logic ([0-9a-f]{16})", read(f"{checkout}/README.md")) if os.path.exists(f"{checkout}/README.md") else None
    found = read(f"{kit}/KIT-ID").strip()
    if wanted and wanted[1] not in found:
        say(f"note: these sources are written for logic {wanted[1]}, and the kit in {kit} is {found}: it may refuse them")
    return kit


def free_memory():
    """Returns the MiB of memory that are free, also within the limit of the control group."""
    found = [number_in("/proc/meminfo", r"MemAvailable:\s+(\d+)") or 1 << 40]
    for limit, held in (("memory.max", r"^anon (\d+)"), ("memory/memory.limit_in_bytes", r"^total_rss (\d+)")):
        held = number_in(f"/sys/fs/cgroup/{os.path.dirname(limit)}/memory.stat", f"(?m){held}")
        limit = number_in(f"/sys/fs/cgroup/{limit}", r"^(\d+)")
        if limit and held is not None:
            found.append((limit - held) >> 10)
    return min(found) >> 10


def need_room(folder, memory, on_disk):
    """Stops if so many MiB of memory or of the folder's disk are not free."""
    if free_memory() < memory:
        raise Stop(f"{free_memory()} MiB of memory are free, and the build needs some {memory}", MISSING)
    disk = os.statvfs(folder)
    left = disk.f_bavail * disk.f_frsize >> 20
    if left < on_disk:
        raise Stop(f"{folder} has {left} MiB of disk left, and the build needs some {on_disk}: free some, or set XDG_CACHE_HOME to another folder", MISSING)


def read_crates(checkout):
    """Returns the program's crates, each after those that it uses: its line of crates.txt, and the names on it, by its name."""
    lines = {}
    for line in read(f"{checkout}/crates.txt").splitlines():
        line = line.partition("#")[0].strip()
        if line:
            lines[re.split("[ :]", line)[0]] = line
    crates = {}

    def add(name):
        uses = lines[name].partition(":")[2].split()
        for it in uses:
            if it in lines and it not in crates:
                add(it)
        crates[name] = lines[name], uses

    add(PROGRAM)
    return crates


class Process:
    """A command in a session of its own. What it says is in a file. It ends when this process is stopped, with all that it started."""

    running = set()

    def __init__(self, words, cwd, said, **more):
        self.said, self.began = said, time.monotonic()
        with open(said, "wb") as out:
            how = {"stdin": subprocess.DEVNULL, "stdout": out, "stderr": out, "cwd": cwd, "start_new_session": True}
            self.process = subprocess.Popen(words, env={**os.environ, "LC_ALL": "C", **more}, **how)
        Process.running.add(self.process)

    def status(self, seconds=0.0):
        """Returns the status once the command has ended, or None after so many seconds."""
        try:
            found = self.process.wait(seconds)
        except subprocess.TimeoutExpired:
            return None
        Process.running.discard(self.process)
        return found

    def text(self):
        with open(self.said, encoding="utf-8", errors="replace") as it:
            return it.read()


def run(what, words, cwd, said, **more):
    """Runs a command to its end, reports each half minute how long it has run, and returns its status with what it said."""
    process = Process(words, cwd, said, **more)
    while True:
        status = process.status(30)
        if status is not None:
            return status, process.text()
        say(f"{what}, {clock(process.began)} so far")


def why(status, said):
    """Returns why a command failed."""
    if status == -signal.SIGKILL:
        return "it was killed, most likely for memory"
    return "\n".join(["it said:", *said.splitlines()[-12:]]) if said.strip() else f"it ended with status {status}"


def link(kit, module, program, said):
    """Links a compiled module to a program."""
    words = [f"{kit}/bin/rattle-link", "--target", TARGET, "--toolchain", f"{kit}/toolchain", "-o", program, module]
    words += [f"{kit}/c/libos_c.a", f"{kit}/c/liblibc_c.a"]
    status, text = run("linking", words, os.path.dirname(program), said)
    if status:
        raise Stop(f"the kit's linker did not link the program: {why(status, text)}")


def try_program(program):
    """Stops if a built program doesn't end an empty script with nothing said."""
    tried = subprocess.run([program, "script"], stdin=subprocess.DEVNULL, capture_output=True, timeout=60)
    if tried.returncode or tried.stdout or tried.stderr:
        raise Stop(f"the program was built, and ended an empty script with status {tried.returncode}")


def end(number, _frame):
    """Ends all processes that were started, and then this one, whose temporary folders are removed. A second signal does not disturb that."""
    for it in SIGNALS:
        signal.signal(it, signal.SIG_IGN)
    for it in Process.running:
        if it.returncode is None:
            with contextlib.suppress(ProcessLookupError, ChildProcessError):
                os.killpg(it.pid, signal.SIGKILL)
                # A folder can't be removed while a process writes into it.
                os.waitid(os.P_PID, it.pid, os.WEXITED | os.WNOWAIT)
    sys.exit(128 + number)


def main(build, *words):
    """Returns the status of a build, after it has said why it failed."""
    for it in SIGNALS:
        signal.signal(it, end)
    try:
        build(*words)
    except Stop as it:
        say(str(it))
        return it.status
    except (OSError, subprocess.TimeoutExpired) as error:
        say(f"the program was not built: {error}")
        return FAILED
    return 0
