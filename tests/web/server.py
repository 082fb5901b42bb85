"""A workspace in a folder of its own, the program under test, and websocketd, which serves the page for it."""
import os
import shutil
import signal
import socket
import subprocess
import tempfile
import time

ROOT = os.path.dirname(os.path.dirname(os.path.dirname(os.path.abspath(__file__))))
SHARE = os.path.join(ROOT, "share", "web")
YT = os.environ.get("YT") or os.path.join(ROOT, "crates", "yt", "out", "yt")

MUSEUM = """relation Painting(title*, painter)
relation Painter(name*, country)
relation Hangs(title, room)
relation Loan(title, museum)
relation Insured(title, value)
relation Thing(code*, text)
insert Painting("The Milkmaid", "Vermeer"), Painting("The Night Watch", "Rembrandt")
insert Painter("Rembrandt", "NL"), Painter("Vermeer", "NL")
insert Hangs("The Milkmaid", "Room 15"), Loan("The Milkmaid", "Tokyo"), Insured("The Milkmaid", 900)
mapping hung: Hangs(t, r) -> Painting(t, p), Painter(p, c)
mapping insured: Painting(t, p), Loan(t, m) -> Insured(t, v)
mapping shown: Painting(t, p) -> Hangs(t, r)
"""


class Server:
    """A workspace with its page. `start` may be called again after `stop`, on the same port."""

    def __init__(self, script=MUSEUM, words=()):
        self.folder = tempfile.mkdtemp()
        self.file, self.words, self.process = os.path.join(self.folder, "museum.yt"), list(words), None
        if script:
            done = self.yt(None, script)
            assert done.returncode == 0, done.stdout + done.stderr
        with socket.socket() as free:
            free.bind(("127.0.0.1", 0))
            self.port = free.getsockname()[1]
        self.url = "http://127.0.0.1:%d/" % self.port
        self.start()

    def start(self):
        words = [os.path.join(SHARE, "serve"), "--port", str(self.port)] + self.words + [self.file]
        self.process = subprocess.Popen(words, env=dict(os.environ, YT=YT), stdout=subprocess.DEVNULL, stderr=subprocess.DEVNULL)
        end = time.time() + 30
        while time.time() < end:
            try:
                socket.create_connection(("127.0.0.1", self.port)).close()
                return
            except OSError:
                assert self.process.poll() is None, "websocketd does not start"
                time.sleep(0.05)
        raise AssertionError("websocketd does not listen")

    def stop(self):
        if self.process:
            self.process.send_signal(signal.SIGTERM)
            self.process.wait()
            self.process = None

    def close(self):
        self.stop()
        shutil.rmtree(self.folder, ignore_errors=True)

    def yt(self, line, data=None, curator="carol"):
        """Runs one command of another curator, or the lines of `data` if the command is None."""
        words = [YT, "--as", curator, self.file] + ([line] if line else [])
        return subprocess.run(words, input=data, capture_output=True, text=True)

    def says(self, line, curator="carol"):
        """The output of one command, which must succeed or wait."""
        done = self.yt(line, curator=curator)
        assert done.returncode in (0, 1, 4), "%s: %s%s" % (line, done.stdout, done.stderr)
        return done.stdout
