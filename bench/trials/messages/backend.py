"""The Firestore emulator and a bridge to its two streams, as one object that sends and collects lines."""
import json
import os
import queue
import shutil
import socket
import subprocess
import sys
import threading
import time
import urllib.request

PACKAGE = "google-cloud-cli-firestore-emulator"
ROOT = "projects/demo/databases/(default)"
HERE = os.path.dirname(os.path.abspath(__file__))
# the streams, which have no account, are refused below `secrets`, and nowhere else
RULES = """rules_version = '2';
service cloud.firestore {
  match /databases/{database}/documents {
    match /{collection}/{path=**} { allow read, write: if collection != 'secrets'; }
  }
}
"""


def find_jar():
    """The jar of the emulator, or none where its package or Java isn't there."""
    if not (shutil.which("java") and shutil.which("javac") and shutil.which("dpkg")):
        return None
    listed = subprocess.run(["dpkg", "-L", PACKAGE], capture_output=True, text=True, check=False).stdout.splitlines()
    return next((line for line in listed if line.endswith(".jar")), None)


def free_port():
    with socket.socket() as found:
        found.bind(("127.0.0.1", 0))
        return found.getsockname()[1]


def java(heap, words):
    front = ["java", "-Xmx%s" % heap, "-XX:ActiveProcessorCount=1", "-XX:+UseSerialGC", "-Duser.language=en"]
    return front + words


class Backend:
    """What runs beside the trial. Every line that the bridge writes is kept in `lines`."""

    def __init__(self, jar, folder):
        self.lines = []
        self.arrived = queue.Queue()
        self.calls = 0
        self.processes = []
        try:
            self.port = free_port()
            self.start_emulator(jar, folder)
            self.start_bridge(jar, folder)
        except BaseException:
            self.stop()
            raise

    def start_emulator(self, jar, folder):
        rules = os.path.join(folder, "firestore.rules")
        with open(rules, "w", encoding="utf-8") as file:
            file.write(RULES)
        name = "com.google.cloud.datastore.emulator.firestore.CloudFirestore"
        words = ["-cp", jar, name, "--host", "127.0.0.1", "--port", str(self.port), "--rules", rules]
        log = os.path.join(folder, "emulator.log")
        with open(log, "wb") as out:
            started = subprocess.Popen(java("1g", words), stdin=subprocess.DEVNULL, stdout=out, stderr=out)
        self.processes.append(started)
        for _ in range(240):
            if started.poll() is not None:
                break
            try:
                urllib.request.urlopen("http://127.0.0.1:%d/" % self.port, timeout=5).close()
                return
            except OSError:
                time.sleep(0.5)
        with open(log, encoding="utf-8", errors="replace") as file:
            sys.exit("the emulator didn't start:\n" + file.read()[-2000:])

    def start_bridge(self, jar, folder):
        classes = os.path.join(folder, "classes")
        compiled = ["javac", "-proc:none", "-nowarn", "-d", classes, "-cp", jar, os.path.join(HERE, "Bridge.java")]
        subprocess.run(compiled, check=True)
        words = ["-cp", classes + os.pathsep + jar, "Bridge", str(self.port)]
        self.bridge = subprocess.Popen(java("256m", words), stdin=subprocess.PIPE, stdout=subprocess.PIPE,
                                       env={**os.environ, "NOAUTH": "1"})
        self.processes.append(self.bridge)
        threading.Thread(target=self.collect, daemon=True).start()

    def collect(self):
        for line in self.bridge.stdout:
            text = line.decode("utf-8").rstrip("\n")
            self.lines.append(text)
            self.arrived.put(json.loads(text))

    def send(self, line):
        self.bridge.stdin.write(json.dumps(line, ensure_ascii=False).encode("utf-8") + b"\n")
        self.bridge.stdin.flush()

    def settle(self, until=None, quiet=0.3, seconds=10):
        """Waits until a line that `until` accepts has come, and then until none has come for a while. Whether it came."""
        end, met = time.monotonic() + seconds, until is None
        while time.monotonic() < end:
            try:
                line = self.arrived.get(timeout=quiet)
                if "broken" in line:
                    sys.exit("the bridge refused a line: " + line["broken"])
                met = met or until(line)
            except queue.Empty:
                if met:
                    break
        return met

    def call(self, method, request):
        """What the backend answers to a call beside the streams."""
        self.calls += 1
        number, found = self.calls, []

        def is_answer(line):
            if line.get("rpc", {}).get("id") == number:
                found.append(line["rpc"])
            return bool(found)

        self.send({"rpc": {"id": number, "method": method, "database": ROOT, "request": {"database": ROOT, **request}}})
        self.settle(is_answer)
        return found[0] if found else {}

    def stop(self):
        """Ends what was started, by its own process, the bridge first."""
        for process in reversed(self.processes):
            process.terminate()
            try:
                process.wait(timeout=10)
            except subprocess.TimeoutExpired:
                process.kill()
                process.wait()
