"""Random sessions of the program `mst`: three copies of a store, as tests/store runs them and judges them by the list of their log."""
import os
import re
import subprocess
import sys

STORE = os.path.join(os.path.dirname(os.path.dirname(os.path.realpath(__file__))), "store")


class Driver:
    """The built program at this path."""

    def __init__(self, path):
        self.path = path

    def soak(self, seed):
        """Runs the session of a seed: how many runs of the program it has, and, if it fails, what is to be shown."""
        done = subprocess.run([sys.executable, STORE, self.path, "1", str(seed)], capture_output=True, text=True, errors="replace")
        if done.returncode:
            return 0, done.stderr.strip()
        return int(re.search(r"(\d+) runs", done.stdout).group(1)), None
