"""A cluster on this machine, for tests and comparisons: a scheduler and workers as processes of their own.

Workers are named RACK.NAME, and each is started in a folder of its own, which is its disk.
"""
from __future__ import annotations

import os
import signal
import subprocess
import sys
import tempfile
import time
from pathlib import Path

from distributed import Client

PATIENCE = 300  # seconds that only a hang takes


def until(holds, what: str) -> None:
    """Waits until something holds."""
    end = time.monotonic() + PATIENCE
    while not holds():
        if time.monotonic() > end:
            raise TimeoutError(f"it has not come to this: {what}")
        time.sleep(0.05)


class Cluster:
    """Processes and a client; `with` ends all of them. With `per_process` so many workers share each process."""

    def __init__(self, racks: int, per_rack: int, threads: int = 1, per_process: int = 0) -> None:
        self.room = tempfile.TemporaryDirectory()
        self.file = Path(self.room.name) / "scheduler.json"
        self.environment = {**os.environ, "OMP_NUM_THREADS": "1", "PYTHONDONTWRITEBYTECODE": "1"}
        self.processes: dict[str, subprocess.Popen] = {}
        self.threads, self.client, self.per_process = threads, None, per_process
        signal.signal(signal.SIGTERM, lambda *_: sys.exit(143))  # so that the processes are ended
        try:
            self.open([f"r{rack}.w{worker}" for rack in range(racks) for worker in range(per_rack)])
        except BaseException:
            self.close()
            raise

    def open(self, names: list[str]) -> None:
        self.begin("scheduler", "scheduler", "--port", "0", "--scheduler-file", str(self.file))
        until(self.file.exists, "the scheduler is there")
        for first in range(0, len(names), self.per_process or 1):
            if self.per_process:
                self.add_together(names[first : first + self.per_process])
            else:
                self.add(names[first])
        self.client = Client(scheduler_file=str(self.file), set_as_default=False, timeout=PATIENCE)
        self.client.wait_for_workers(len(names), timeout=PATIENCE)

    def begin(self, name: str, kind: str, *words: str) -> None:
        """Starts a process of Dask in the folder of its name."""
        command = ["-m", f"distributed.cli.dask_{kind}", "--host", "127.0.0.1", "--no-dashboard"]
        self.spawn(name, [*command, *words])

    def spawn(self, name: str, words: list[str]) -> None:
        self.disk(name).mkdir(exist_ok=True)
        with open(self.disk(name) / "log", "w", encoding="utf-8") as log:
            self.processes[name] = subprocess.Popen(
                [sys.executable, *words], stdin=subprocess.DEVNULL, stdout=log, stderr=log, cwd=self.disk(name),
                env=self.environment,
            )

    def disk(self, name: str) -> Path:
        return Path(self.room.name) / name

    def add(self, name: str, nanny: str = "--no-nanny") -> None:
        """Starts a worker, or another one on the disk of one that died."""
        self.begin(name, "worker", "--scheduler-file", str(self.file), "--name", name, "--nthreads", str(self.threads),
                   nanny, "--memory-limit", "0", "--local-directory", str(self.disk(name)))

    def add_together(self, names: list[str]) -> None:
        """Starts workers in one process."""
        self.spawn(names[0], [str(Path(__file__).resolve().with_name("workers.py")), str(self.file), *names])

    def addresses(self) -> dict[str, str]:
        """The address of each live worker, by its name."""
        return {it["name"]: address for address, it in self.client.scheduler_info()["workers"].items()}

    def kill(self, name: str) -> None:
        """Kills a worker, and waits until the scheduler knows it."""
        self.processes[name].kill()
        self.processes[name].wait()
        until(lambda: name not in self.addresses(), f"{name} is gone")

    def revive(self, names: list[str]) -> None:
        """Starts those that are not there again."""
        lacking = [it for it in names if it not in self.addresses()]
        for name in lacking:
            self.add(name)
        until(lambda: {*names} <= {*self.addresses()}, "all workers are there")

    def close(self) -> None:
        if self.client:
            self.client.close()
        for process in reversed(self.processes.values()):
            process.kill()
        for process in self.processes.values():
            process.wait()
        self.room.cleanup()

    def __enter__(self) -> "Cluster":
        return self

    def __exit__(self, *_) -> None:
        self.close()
