"""A Slurm of one node on the loopback, for the time of some tests: munged, slurmctld and slurmd, ended by their ids."""

import os
import shutil
import socket
import subprocess
import time
from collections.abc import Callable
from getpass import getuser
from pathlib import Path

DAEMONS = ("munged", "slurmctld", "slurmd")
LONGEST = "600"
"""Seconds after which a daemon ends in any case."""
CONFIGURATION = """\
ClusterName=whatif
SlurmctldHost={host}(127.0.0.1)
AuthType=auth/munge
AuthInfo=socket={folder}/munge.sock
SlurmUser={user}
SlurmdUser={user}
StateSaveLocation={folder}/state
SlurmdSpoolDir={folder}/spool
SlurmctldPidFile={folder}/slurmctld.pid
SlurmdPidFile={folder}/slurmd.pid
SlurmctldPort={ports[0]}
SlurmdPort={ports[1]}
ProctrackType=proctrack/pgid
ReturnToService=2
SelectType=select/cons_tres
SelectTypeParameters=CR_Core
NodeName={host} NodeAddr=127.0.0.1 CPUs={cores} RealMemory=500 State=UNKNOWN
PartitionName=main Nodes=ALL Default=YES MaxTime=INFINITE State=UP
"""


def answers() -> bool:
    """Whether a Slurm is there, with a node that takes jobs."""
    if not shutil.which("sinfo"):
        return False
    asked = subprocess.run(["sinfo", "--noheader", "--format=%t"], capture_output=True, text=True)
    return asked.returncode == 0 and any(it in asked.stdout.split() for it in ("idle", "mix", "alloc"))


def is_installed() -> bool:
    return shutil.which("sbatch") is not None and all(map(found, DAEMONS))


def found(name: str) -> "str | None":
    return shutil.which(name, path=f"{os.environ.get('PATH', '')}:/usr/sbin:/sbin")


def free_port() -> int:
    with socket.socket() as free:
        free.bind(("127.0.0.1", 0))
        return int(free.getsockname()[1])


class Node:
    """The three daemons, in a folder of their own. `settings` are for the environment of who uses them."""

    def __init__(self, folder: Path) -> None:
        self.folder = folder
        self.settings = {"SLURM_CONF": str(folder / "slurm.conf")}
        self.running: list[subprocess.Popen[bytes]] = []

    def begin(self) -> None:
        """Begins the daemons, and waits until the node takes jobs."""
        host, ports = socket.gethostname().partition(".")[0], (free_port(), free_port())
        for name in ("state", "spool"):
            (self.folder / name).mkdir()
        (self.folder / "munge.key").write_bytes(os.urandom(1024))
        (self.folder / "munge.key").chmod(0o400)
        told = CONFIGURATION.format(host=host, folder=self.folder, user=getuser(), ports=ports, cores=len(os.sched_getaffinity(0)))
        (self.folder / "slurm.conf").write_text(told)
        files = [f"--{it}-file={self.folder}/munge.{it}" for it in ("key", "pid", "log", "seed")]
        self.daemon("munged", "--foreground", "--force", f"--socket={self.folder}/munge.sock", *files)
        self.wait_for((self.folder / "munge.sock").exists)
        self.daemon("slurmctld", "-D")
        self.daemon("slurmd", "-D", "-N", host)
        os.environ.update(self.settings)
        self.wait_for(answers)

    def daemon(self, name: str, *words: str) -> None:
        with (self.folder / f"{name}.log").open("wb") as log:
            line = ["timeout", LONGEST, str(found(name)), *words]
            environment = {**os.environ, **self.settings}
            self.running.append(subprocess.Popen(line, env=environment, stdin=subprocess.DEVNULL, stdout=log, stderr=log))

    def wait_for(self, holds: Callable[[], bool]) -> None:
        end = time.monotonic() + 60
        while not holds():
            if time.monotonic() > end or any(it.poll() is not None for it in self.running):
                raise RuntimeError("".join(it.read_text(errors="replace")[-2000:] for it in self.folder.glob("*.log")))
            time.sleep(0.2)

    def end(self) -> None:
        """Ends the daemons, the last first."""
        for one in reversed(self.running):
            one.terminate()
            try:
                one.wait(20)
            except subprocess.TimeoutExpired:
                one.kill()
                one.wait()
