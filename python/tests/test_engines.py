"""Sweeps on dask and on MPI, where they are installed: rows are those of one process, also where a worker is killed."""
from __future__ import annotations

import json
import logging
import os
import pathlib
import shutil
import signal
import subprocess
import sys
import tempfile
import time
import unittest
import warnings
from typing import Any

from common import TOP, bentzolu, needs_route
from test_sweeps import bare, free_environment, has, needs_numpy, numpy

GRID = TOP / "examples/petersen.adjlist"
HAS_DASK = numpy is not None and has("distributed")
HAS_MPI = numpy is not None and has("mpi4py.futures") and shutil.which("mpiexec") is not None
SECONDS = 60  # the most that an engine takes until it is there


@needs_route
@needs_numpy
@unittest.skipUnless(HAS_DASK, "there is no dask: python3-distributed")
class DaskTest(unittest.TestCase):
    def setUp(self) -> None:
        folder = tempfile.TemporaryDirectory()
        self.addCleanup(folder.cleanup)
        self.folder = pathlib.Path(folder.name)
        file = self.folder / "scheduler.json"
        self.start("dask_scheduler", "--host", "127.0.0.1", "--port", "0", "--no-dashboard", "--scheduler-file", file)
        end = time.monotonic() + SECONDS
        while not (file.exists() and file.read_text().rstrip().endswith("}")):
            if time.monotonic() > end:
                self.skipTest("the scheduler of dask does not come up")
            time.sleep(0.1)
        self.address = json.loads(file.read_text())["address"]
        self.workers = [self.start("dask_worker", self.address, "--no-nanny", "--nthreads", "1", "--no-dashboard", "--local-directory", self.folder) for _ in range(2)]

    def start(self, module: Any, *given: Any) -> Any:
        """A process of dask, which ends with the test."""
        command = [sys.executable, "-m", f"distributed.cli.{module}", *map(str, given)]
        process = subprocess.Popen(command, env=free_environment(), stdout=subprocess.DEVNULL, stderr=subprocess.DEVNULL, cwd=self.folder)
        self.addCleanup(process.wait)
        self.addCleanup(process.kill)
        return process

    def test_rows_with_a_worker_that_is_killed(self) -> None:
        with warnings.catch_warnings():
            warnings.simplefilter("ignore", DeprecationWarning)
            import distributed

        logging.getLogger("distributed").setLevel(logging.CRITICAL)
        self.addCleanup(logging.getLogger("distributed").setLevel, logging.WARNING)
        whole, pairs = bare(bentzolu.sweep(GRID, kind="compact")), bare(bentzolu.sweep(GRID, 2))
        with distributed.Client(self.address, timeout=SECONDS) as client:  # type: ignore[no-untyped-call]
            try:
                client.wait_for_workers(2, timeout=SECONDS)
            except (TimeoutError, OSError):
                self.skipTest("the workers of dask do not come up")
            executor = client.get_executor(retries=3)
            self.assertEqual(bare(bentzolu.sweep(GRID, kind="compact", executor=executor, chunk=2)), whole)
            path = self.folder / "rows.jsonl"
            with KilledAt(path, 20, self.workers[0]):
                found = bentzolu.sweep(GRID, 2, executor=executor, chunk=3, results=path)
            self.assertEqual(bare(found), pairs)
            self.assertIsNotNone(self.workers[0].poll())
        done = subprocess.run(
            [sys.executable, "-m", "bentzolu", "sweep", str(GRID), "--dask", self.address, "--worst", "2"], env=free_environment(), capture_output=True, text=True, check=False,
        )
        self.assertEqual((done.returncode, len(done.stdout.splitlines())), (0, 4), done.stderr)


class KilledAt:
    """Kills a process of this test once a file has so many lines."""

    def __init__(self, path: Any, lines: Any, process: Any) -> None:
        self.path, self.lines, self.process = path, lines, process

    def __enter__(self) -> None:
        from bentzolu.results import Results

        self.add = Results.add

        def add(results: Any, lines: Any) -> None:
            self.add(results, lines)
            if self.process.poll() is None and self.path.read_bytes().count(b"\n") > self.lines:
                self.process.send_signal(signal.SIGKILL)
                self.process.wait()

        Results.add = add  # type: ignore[assignment]

    def __exit__(self, *_: Any) -> None:
        from bentzolu.results import Results

        Results.add = self.add  # type: ignore[assignment]


@needs_route
@needs_numpy
@unittest.skipUnless(HAS_MPI, "there is no MPI: python3-mpi4py, openmpi-bin")
class MPITest(unittest.TestCase):
    ENVIRONMENT = {
        "OMPI_ALLOW_RUN_AS_ROOT": "1", "OMPI_ALLOW_RUN_AS_ROOT_CONFIRM": "1", "OMPI_MCA_rmaps_base_oversubscribe": "1",
        "OMPI_MCA_btl_vader_single_copy_mechanism": "none", "OMPI_MCA_mpi_yield_when_idle": "1",
    }

    def test_rows(self) -> None:
        with tempfile.TemporaryDirectory() as folder:
            path = pathlib.Path(folder, "rows.jsonl")
            command = ["mpiexec", "-n", "3", sys.executable, "-m", "mpi4py.futures", "-m", "bentzolu", "sweep", str(GRID), "--mpi", "-o", str(path)]
            done = subprocess.Popen(
                command, env={**free_environment(), **self.ENVIRONMENT}, stdout=subprocess.PIPE, stderr=subprocess.STDOUT, text=True, start_new_session=True,
            )
            try:
                said, _ = done.communicate(timeout=2 * SECONDS)
            except subprocess.TimeoutExpired:
                os.killpg(done.pid, signal.SIGKILL)  # mpiexec and what it started
                done.communicate()
                self.skipTest("MPI does not come up")
            self.assertEqual(done.returncode, 0, said)
            found = bentzolu.read_sweep(path)
            self.assertEqual({row.name: row[1:-2] for row in found}, {row.name: row[1:-2] for row in bentzolu.sweep(GRID)})
            path.write_bytes(b"".join(path.read_bytes().splitlines(True)[:7]))
            self.assertEqual(bare(bentzolu.sweep(GRID, results=path)), bare(bentzolu.sweep(GRID)))


if __name__ == "__main__":
    unittest.main()
