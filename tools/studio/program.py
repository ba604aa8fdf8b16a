"""The proved program that answers: built already, or built while the page says so."""
# SPDX-License-Identifier: Apache-2.0
import os
import subprocess
import threading
import time


class Program:
    """`path` is the program, or nothing yet; `is_recorded`: the gate's record says that it is proved; `build` is a command that builds one
    and writes its path."""

    def __init__(self, path, is_recorded, build):
        self.path = path
        self.is_recorded = is_recorded
        self.begun = time.monotonic()
        self.fault = ""
        self.run = None
        if not path:
            self.run = subprocess.Popen(build, stdin=subprocess.DEVNULL, stdout=subprocess.PIPE, stderr=subprocess.PIPE, text=True, start_new_session=True)
            threading.Thread(target=self.wait, daemon=True).start()

    def wait(self):
        said, faults = self.run.communicate()
        path = said.strip()
        if self.run.returncode == 0 and os.access(path, os.X_OK):
            self.path = path
        else:
            self.fault = (faults.strip().splitlines() or ["the program could not be built"])[-1].removeprefix("geo: ")

    def waited(self, look):
        """Tells each second for how long it is being built, until it is there; `look` ends the waiting."""
        while not self.path and not self.fault:
            yield {"state": "building", "words": f"The program is being built, which takes some minutes: {round(time.monotonic() - self.begun)} s so far."}
            for _ in range(10):
                if self.path or self.fault:
                    break
                look()
                time.sleep(0.1)
        if self.fault:
            yield {"state": "error", "html": "", "note": f"There is no program: {self.fault}"}

    def close(self):
        if self.run and self.run.poll() is None:
            os.killpg(self.run.pid, 15)
            self.run.wait()
