"""Interfaces that are played: a serial one by a thread, and one of python-dali by a library of the tests' own."""

import json
import os
import pty
import select
import termios
import threading
import time
import tty

from adapter_desk import ADAPTERS, run
from base import want
from driven import ROOT

LIBRARY_LINK = ADAPTERS / "python_dali_link.py"
LIBRARY = ROOT / "tests" / "python_dali"
LIMIT = 2  # seconds, the time limit where a busy machine may take long


class SerialInterface:
    """Plays a serial interface on a pseudo-terminal. Each reply is bytes, seconds to wait, or `close` to be gone."""

    def __init__(self, replies, end=b"\r"):
        self.line, self.far_line = pty.openpty()
        tty.setraw(self.far_line)
        self._set_speed(termios.B75)
        self.device = os.ttyname(self.far_line)
        self.replies, self.end = replies, end
        self.heard, self.speeds = [], None
        self.thread = threading.Thread(target=self._play, daemon=True)
        self.thread.start()

    def _set_speed(self, speed):
        attributes = termios.tcgetattr(self.far_line)
        attributes[4:6] = speed, speed
        termios.tcsetattr(self.far_line, termios.TCSANOW, attributes)

    def _play(self):
        for turn in self.replies:
            if not self._hear():
                return
            for what in turn:
                if what == "close":
                    os.close(self.far_line)
                    os.close(self.line)
                    self.line = None
                    return
                if isinstance(what, bytes):
                    os.write(self.line, what)
                else:
                    time.sleep(what)
        self._hear(0.3)

    def _hear(self, seconds=3):
        """Read one line of a frame, where one comes, and the speeds that the line then has."""
        text = b""
        while not text.endswith(self.end) and select.select([self.line], [], [], seconds)[0]:
            text += os.read(self.line, 1)
        if text:
            self.heard.append(text.decode())
            self.speeds = termios.tcgetattr(self.far_line)[4:6]
        return text.endswith(self.end)

    def close(self):
        """Wait for the end of what is played, and close the pseudo-terminal."""
        self.thread.join()
        if self.line is not None:
            os.close(self.line)
            os.close(self.far_line)


class LibraryInterface:
    """Plays an interface, by the library: what it does at each frame, and what it has heard."""

    def __init__(self, folder, turns=(), **more):
        self.folder, self.heard_in = folder, folder / "heard"
        self.heard_in.touch()
        self.script = folder / "played.json"
        self.script.write_text(json.dumps({"turns": turns, "heard": str(self.heard_in), **more}))
        # A device is a file that this user may open; nothing opens it.
        self.device = folder / "device"
        self.device.touch()
        self.environment = {**os.environ, "PLAYED_DALI": str(self.script), "PYTHONPATH": str(LIBRARY),
                            "PYTHONDONTWRITEBYTECODE": "1"}

    def run(self, words, *options, driver="tridonic", limit=LIMIT):
        """Run a stand-in command over it; give its status, the answers, the frames that it heard, the text."""
        options = ["--time-limit", limit, *options, driver, self.device]
        status, answers, told = run(LIBRARY_LINK, options, words, env=self.environment)
        assert "Traceback" not in told and "Task" not in told, told
        return status, answers, self.frames(), told

    def frames(self):
        """Give the frames that were heard: each of 16 bits, and none that the library knows by a name."""
        lines = [it.split() for it in self.heard_in.read_text().splitlines() if not it.startswith("device ")]
        want([line for line in lines if line[0] != "16" or line[2:] != ["0"]], [])
        return [line[1] for line in lines]
