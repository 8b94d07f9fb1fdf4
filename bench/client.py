"""What the scripts of this folder share: the program, its lines, and runs of it."""
import json
import os
import subprocess
import sys
import tempfile
import threading
import time

ROOT = os.path.dirname(os.path.dirname(os.path.abspath(__file__)))
NAME_FRONT = "projects/demo/databases/(default)/documents/"


def memory_folder():
    """A folder in memory, or where the machine has none, that of temporary files."""
    return "/dev/shm" if os.path.isdir("/dev/shm") else tempfile.gettempdir()


def find_program(given):
    """The built program: the one that is named, or that of this repository, built first where it must be. What is run from here on
    has its memory in large pages, as the script fsclient begins the program, unless the caller says otherwise."""
    os.environ.setdefault("GLIBC_TUNABLES", "glibc.malloc.hugetlb=1")
    if given:
        return os.path.abspath(given)
    subprocess.run([os.path.join(ROOT, "fsclient")], stdin=subprocess.DEVNULL, stdout=subprocess.DEVNULL)
    program = os.path.join(ROOT, "crates", "client_cli", "out", "client_cli")
    if not os.access(program, os.X_OK):
        sys.exit("there is no program at " + program)
    return program


def write_line(path, number, second=1):
    """A line that writes the document, with its one field n."""
    return ('{"write":{"at":"2024-05-01T00:00:%02dZ","writes":[{"update":{"name":"%s%s","fields":{"n":{"integerValue":"%d"}}}}]}}\n'
            % (second, NAME_FRONT, path, number)).encode()


def get_line(path):
    return ('{"get":{"name":"%s%s"}}\n' % (NAME_FRONT, path)).encode()


def nested_line(size):
    """A write line of about so many bytes, and the fields that it sets."""
    inner = {"arrayValue": {"values": [{"integerValue": "12345"}, {"stringValue": "some text"}]}}
    item = {"mapValue": {"fields": {"a": inner, "t": {"timestampValue": "2024-05-01T00:00:01Z"}}}}
    fields = {"v": {"arrayValue": {"values": [item] * (size // len(json.dumps(item, separators=(",", ":"))))}}}
    update = {"name": NAME_FRONT + "rooms/a", "fields": fields}
    line = {"write": {"at": "2024-05-01T00:00:01Z", "writes": [{"update": update}]}}
    return (json.dumps(line, separators=(",", ":")) + "\n").encode(), fields


def run_lines(program, folder, lines, seconds=60):
    """The status and the output of a run over the lines."""
    done = subprocess.run([program, "run", folder], input=b"".join(lines), stdout=subprocess.PIPE,
                          stderr=subprocess.DEVNULL, timeout=seconds)
    return done.returncode, done.stdout


def peak_memory(pid):
    """The most memory that the process has had in use so far, in KiB."""
    with open("/proc/%d/status" % pid) as file:
        for line in file:
            if line.startswith("VmHWM:"):
                return int(line.split()[1])
    return 0


class Client:
    """The program over a store, asked line by line."""

    def __init__(self, program, store):
        self.process = subprocess.Popen([program, "run", store], stdin=subprocess.PIPE, stdout=subprocess.PIPE, stderr=subprocess.DEVNULL, bufsize=1 << 16)

    def feed(self, lines):
        for at in range(0, len(lines), 500):
            self.process.stdin.write(b"".join(lines[at:at + 500]))
        self.process.stdin.flush()

    def used(self):
        """The seconds of the processor so far."""
        with open("/proc/%d/schedstat" % self.process.pid) as file:
            return int(file.read().split()[0]) / 1e9

    def ask(self, lines, printed):
        """Feeds the lines, which print so many; gives the seconds up to the last of them, those of the processor, and the last."""
        before, started = self.used(), time.monotonic()
        feeder = threading.Thread(target=self.feed, args=(lines,), daemon=True)
        feeder.start()
        last = b""
        for _ in range(printed):
            last = self.process.stdout.readline()
            if not last:
                sys.exit("the program ended early, with status %d" % self.process.wait())
        seconds = time.monotonic() - started
        feeder.join()
        return seconds, self.used() - before, last

    def tell(self, line, printed):
        """Feeds one line, as `ask` does, without a thread beside it."""
        before, started = self.used(), time.monotonic()
        self.process.stdin.write(line)
        self.process.stdin.flush()
        for _ in range(printed):
            last = self.process.stdout.readline()
        return time.monotonic() - started, self.used() - before, last

    def end(self):
        """The peak of its memory in KiB; the run ends."""
        memory = peak_memory(self.process.pid)
        self.process.stdin.close()
        if self.process.stdout.read() or self.process.wait() != 0:
            sys.exit("the program printed more than was due, or ended with status %d" % self.process.wait())
        return memory


def measure(program, folder, lines):
    """Runs the lines; gives the seconds up to the last answer, the peak memory in KiB by then, and the last answer."""
    started = time.monotonic()
    process = subprocess.Popen([program, "run", folder], stdin=subprocess.PIPE, stdout=subprocess.PIPE,
                               stderr=subprocess.DEVNULL, bufsize=1 << 16)

    def feed():
        for at in range(0, len(lines), 500):
            process.stdin.write(b"".join(lines[at:at + 500]))
        process.stdin.flush()

    feeder = threading.Thread(target=feed, daemon=True)
    feeder.start()
    last = b""
    for _ in lines:
        last = process.stdout.readline()
        if not last:
            sys.exit("the program ended early, with status %d" % process.wait())
    seconds = time.monotonic() - started
    memory = peak_memory(process.pid)
    feeder.join()
    process.stdin.close()
    process.stdout.read()
    if process.wait() != 0:
        sys.exit("the program ended with status %d" % process.returncode)
    return seconds, memory, last


def machine():
    """The machine in one line."""
    model = "unknown processor"
    with open("/proc/cpuinfo") as file:
        for line in file:
            if line.startswith("model name"):
                model = line.split(":", 1)[1].strip()
                break
    return "%s, %d processors, Linux %s" % (model, os.cpu_count(), os.uname().release)


def file_system(folder):
    """The kind of the file system on which the folder is."""
    best, kind = "", "unknown"
    with open("/proc/mounts") as file:
        for line in file:
            _, at, name = line.split()[:3]
            if (folder + "/").startswith(at.rstrip("/") + "/") and len(at) >= len(best):
                best, kind = at, name
    return kind
