"""The engines, each run for real where it is installed: Dask, Slurm, MPI, loky, GNU parallel. All give the same bytes."""

import os
import shutil
import signal
import socket
import subprocess
import sys
import tempfile
import time
import unittest
from importlib.util import find_spec
from pathlib import Path
from unittest import mock

from tests import ROOT
from tests.sweep import slurm_node
from tests.sweep.sweeping import SOLAR, SweepTest, solar_result, solar_sets, text_of
from tests.support.program import PROGRAM

SETS = text_of(solar_sets(300))
WANTED = text_of(["name,B10", *map(solar_result, SETS.splitlines()[1:])])
"""What must come out, by Python's fractions."""
CLIENT = str(ROOT / "clients" / "python")


def has(*modules: str) -> bool:
    return all(find_spec(it) for it in modules)


class EngineTest(SweepTest):
    def setUp(self) -> None:
        super().setUp()
        (self.folder / "sets.csv").write_text(SETS)
        self.wanted = WANTED

    def arguments(self, *words: object) -> list[object]:
        return [SOLAR, "--out", "B10", "--sets", "sets.csv", *words]

    def wait_for_chunks(self, count: int, running: "subprocess.Popen[bytes]") -> None:
        end = time.monotonic() + 90
        while time.monotonic() < end and running.poll() is None:
            if (self.folder / "work" / "done").exists() and len(self.done_files()) >= count:
                return
            time.sleep(0.05)
        self.fail(f"no {count} chunks in 90 seconds, or the tool has ended: {running.poll()}")

    def begin(self, *words: object, program: object = PROGRAM) -> "subprocess.Popen[bytes]":
        line, environment = self.words(*self.arguments(*words)), self.environment(program)
        running = subprocess.Popen(line, cwd=self.folder, env=environment, stdin=subprocess.DEVNULL, stderr=subprocess.PIPE)
        assert running.stderr
        self.addCleanup(running.stderr.close)
        return running

    def results(self) -> str:
        return (self.folder / "results.csv").read_text()


@unittest.skipUnless(has("distributed"), "Dask isn't installed")
class DaskTest(EngineTest):
    """A scheduler and workers, each a process of its own, on the loopback. The workers don't find this package."""

    away: str
    address: str
    workers: "list[subprocess.Popen[bytes]]"

    @classmethod
    def setUpClass(cls) -> None:
        kept = tempfile.TemporaryDirectory()
        cls.addClassCleanup(kept.cleanup)
        cls.away = kept.name
        with socket.socket() as free:
            free.bind(("127.0.0.1", 0))
            port = free.getsockname()[1]
        cls.address = f"tcp://127.0.0.1:{port}"
        cls.daemon("dask_scheduler", "--host", "127.0.0.1", "--port", str(port))
        cls.workers = [cls.worker(), cls.worker()]

    @classmethod
    def daemon(cls, name: str, *words: str) -> "subprocess.Popen[bytes]":
        line = [sys.executable, "-m", f"distributed.cli.{name}", *words, "--no-dashboard"]
        environment = {name: value for name, value in os.environ.items() if name not in ("WHATIF", "PYTHONPATH")}
        away = subprocess.DEVNULL
        running = subprocess.Popen(line, stdin=away, stdout=away, stderr=away, cwd=cls.away, env=environment)

        def end() -> None:
            running.kill()
            running.wait()

        cls.addClassCleanup(end)
        return running

    @classmethod
    def worker(cls) -> "subprocess.Popen[bytes]":
        return cls.daemon("dask_worker", cls.address, "--nthreads", "1", "--no-nanny", "--local-directory", cls.away)

    def dask(self) -> list[object]:
        return ["--engine", "dask", "--scheduler", self.address]

    def test_the_same_bytes(self) -> None:
        ran = self.run_apart(*self.arguments(*self.dask()))
        self.assertEqual((ran.returncode, ran.stdout), (0, self.wanted), ran.stderr)

    def test_a_worker_is_killed_and_another_comes(self) -> None:
        running = self.begin(*self.dask(), "--resume", "work", "-o", "results.csv", program=self.slow(0.3))
        self.wait_for_chunks(3, running)
        self.workers.pop().kill()
        self.wait_for_chunks(7, running)
        self.workers.append(self.worker())
        self.quicken()
        _, said = running.communicate(timeout=120)
        self.assertEqual((running.returncode, self.results()), (0, self.wanted), said.decode())

    def test_the_tool_is_killed_and_goes_on_by_itself(self) -> None:
        running = self.begin(*self.dask(), "--resume", "work", "-o", "results.csv", program=self.slow(0.3))
        self.wait_for_chunks(3, running)
        running.kill()
        running.wait()
        before = self.done_files()
        self.quicken()
        ran = self.run_apart("--resume", "work", "--jobs", "2", "-o", "results.csv", program=self.folder / "slow")
        self.assertEqual((ran.returncode, self.results()), (0, self.wanted), ran.stderr)
        after = self.done_files()
        self.assertEqual({it: after[it] for it in before}, before)

    def test_ctrl_c(self) -> None:
        running = self.begin(*self.dask(), "--resume", "work", "-o", "results.csv", program=self.slow(0.3))
        self.wait_for_chunks(3, running)
        running.send_signal(signal.SIGINT)
        _, said = running.communicate(timeout=60)
        self.assertEqual(running.returncode, 130, said.decode())
        self.assertIn("--engine=dask", said.decode())
        self.quicken()
        ran = self.run_apart("--resume", "work", *self.dask(), "-o", "results.csv", program=self.folder / "slow")
        self.assertEqual((ran.returncode, self.results()), (0, self.wanted), ran.stderr)


@unittest.skipUnless(has("distributed"), "Dask isn't installed")
class NoSchedulerTest(EngineTest):
    def test_no_scheduler(self) -> None:
        with socket.socket() as free:
            free.bind(("127.0.0.1", 0))
            address = f"tcp://127.0.0.1:{free.getsockname()[1]}"
        with mock.patch.dict(os.environ, DASK_DISTRIBUTED__COMM__TIMEOUTS__CONNECT="1s"):
            ran = self.run_apart(*self.arguments("--engine", "dask", "--scheduler", address))
        self.assertEqual((ran.returncode, ran.stdout), (2, ""))
        self.assertIn("no Dask scheduler at", ran.stderr)


@unittest.skipUnless(slurm_node.answers() or slurm_node.is_installed(), "Slurm isn't installed")
class SlurmTest(EngineTest):
    """The Slurm that is there, or else one of our own on the loopback."""

    @classmethod
    def setUpClass(cls) -> None:
        if slurm_node.answers():
            return
        kept = tempfile.TemporaryDirectory()
        cls.addClassCleanup(kept.cleanup)
        node = slurm_node.Node(Path(kept.name))
        environment = mock.patch.dict(os.environ)
        environment.start()
        cls.addClassCleanup(environment.stop)
        cls.addClassCleanup(node.end)
        try:
            node.begin()
        except RuntimeError as error:
            raise unittest.SkipTest(f"Slurm doesn't begin here: {error}") from None

    def slurm(self) -> list[object]:
        return ["--engine", "slurm", "--parts", "8", "--sbatch=--mem=100M", "--resume", "work", "-o", "results.csv"]

    def test_the_same_bytes(self) -> None:
        ran = self.run_apart(*self.arguments(*self.slurm()))
        self.assertEqual((ran.returncode, self.results()), (0, self.wanted), ran.stderr)

    def test_parts_are_cancelled_and_only_these_are_done_again(self) -> None:
        running = self.begin(*self.slurm(), program=self.slow(1))
        self.wait_for_chunks(5, running)
        job = (self.folder / "work" / "slurm.job").read_text()
        states = subprocess.run(["squeue", "--noheader", "--array", "--jobs", job, "--states=RUNNING", "--format=%i"], capture_output=True, text=True)
        cancelled = states.stdout.split()
        subprocess.run(["scancel", *cancelled], check=True)
        _, said = running.communicate(timeout=180)
        self.assertEqual(running.returncode, 3, said.decode())
        self.assertFalse((self.folder / "results.csv").exists())
        before = self.done_files()
        self.quicken()
        ran = self.run_apart("--resume", "work", *self.slurm()[:-4], "-o", "results.csv", program=self.folder / "slow")
        self.assertEqual((ran.returncode, self.results()), (0, self.wanted), ran.stderr)
        after = self.done_files()
        self.assertEqual({it: after[it] for it in before}, before)
        redone = {int(it) % 8 for it in after if it not in before}
        self.assertLessEqual(redone, {int(it.partition("_")[2]) for it in cancelled})
        again = (self.folder / "work" / "slurm.job").read_text()
        logs = {it.name.partition("_")[2] for it in (self.folder / "work" / "logs").glob(f"{again}_*")}
        self.assertEqual(logs, {f"{it}.log" for it in redone})

    def test_the_tool_is_stopped_and_comes_back_to_the_job(self) -> None:
        running = self.begin(*self.slurm(), program=self.slow(1))
        self.wait_for_chunks(2, running)
        running.send_signal(signal.SIGINT)
        _, said = running.communicate(timeout=60)
        self.assertEqual(running.returncode, 130)
        self.assertRegex(said.decode(), "job [0-9]+ goes on without this program; scancel [0-9]+ ends it")
        ran = self.run_apart("--resume", "work", *self.slurm()[:-4], "-o", "results.csv", program=self.folder / "slow")
        self.assertEqual((ran.returncode, self.results()), (0, self.wanted), ran.stderr)
        self.assertRegex(ran.stderr, "job [0-9]+ goes on\n")

    def test_options_that_sbatch_doesnt_take(self) -> None:
        ran = self.run_apart(*self.arguments(*self.slurm(), "--sbatch=--partition=none"))
        self.assertEqual(ran.returncode, 2)
        self.assertIn("sbatch: ", ran.stderr)


@unittest.skipUnless(has("mpi4py") and shutil.which("mpiexec"), "MPI isn't installed")
class MpiTest(EngineTest):
    def mpi(self, *words: object) -> list[str]:
        root = ["--allow-run-as-root"] if os.geteuid() == 0 else []
        line = ["mpiexec", *root, "--oversubscribe", "-n", "3", sys.executable, "-m", "mpi4py.futures", "-m", "whatif.sweeps"]
        return [str(it) for it in [*line, *self.arguments("--executor", "mpi4py.futures:MPIPoolExecutor", *words)]]

    def test_the_same_bytes(self) -> None:
        environment = self.environment(PYTHONPATH=CLIENT)
        ran = subprocess.run(self.mpi(), capture_output=True, text=True, cwd=self.folder, env=environment, stdin=subprocess.DEVNULL, timeout=120)
        self.assertEqual((ran.returncode, ran.stdout), (0, self.wanted), ran.stderr)


@unittest.skipUnless(has("joblib"), "loky isn't installed")
class LokyTest(EngineTest):
    def test_the_same_bytes(self) -> None:
        ran = self.run_apart(*self.arguments("--executor", "joblib.externals.loky:get_reusable_executor"))
        self.assertEqual((ran.returncode, ran.stdout), (0, self.wanted), ran.stderr)


@unittest.skipUnless(shutil.which("parallel"), "GNU parallel isn't installed")
class ParallelTest(EngineTest):
    def test_parts(self) -> None:
        self.run_apart(*self.arguments("--resume", "work", "--plan"))
        line = ["parallel", "--will-cite", "-j2", *self.words("--resume", "work", "--jobs", "1", "--part", "{}/6"), ":::", *map(str, range(6))]
        ran = subprocess.run(line, cwd=self.folder, env=self.environment(HOME=str(self.folder)), capture_output=True, text=True, timeout=120)
        self.assertEqual((ran.returncode, ran.stdout), (0, ""), ran.stderr)
        before = self.done_files()
        ran = self.run_apart("--resume", "work")
        self.assertEqual((ran.stdout, self.done_files()), (self.wanted, before))


class NamedExecutorTest(EngineTest):
    def test_threads_by_their_name(self) -> None:
        ran = self.run_apart(*self.arguments("--executor", "concurrent.futures:ThreadPoolExecutor"))
        self.assertEqual((ran.returncode, ran.stdout), (0, self.wanted))

    def test_names_that_arent_there(self) -> None:
        for name in ("none:Executor", "concurrent.futures:None_", "concurrent.futures", ""):
            ran = self.run_apart(*self.arguments("--executor", name or ":"))
            self.assertEqual((ran.returncode, ran.stdout), (2, ""), name)


if __name__ == "__main__":
    unittest.main()
