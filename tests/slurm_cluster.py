"""A Slurm cluster of several nodes on this machine, for tests: as root, without systemd, over the loopback alone.

Each node is a slurmd in a namespace of processes of its own. So a node dies as a machine does: its daemon, the daemons
of its job steps and their tasks, all at once."""

from __future__ import annotations

import os
import shutil
import signal
import socket
import subprocess
import time
from pathlib import Path
from types import TracebackType
from typing import Callable, Dict, List, Optional, Type

from outside import Failure, run

TOOLS = ("slurmctld", "slurmd", "munged", "sbatch", "unshare")
SECONDS_TO_START = 30

CONFIGURATION = """\
ClusterName=farm
SlurmctldHost={host}(127.0.0.1)
SlurmctldPort={port}
SlurmUser=root
SlurmdUser=root
AuthType=auth/munge
AuthInfo=socket={folder}/munge/socket
CredType=cred/munge
StateSaveLocation={folder}/state
SlurmctldPidFile={folder}/slurmctld.pid
SlurmctldLogFile={folder}/log/slurmctld
SlurmdPidFile={folder}/%n.pid
SlurmdLogFile={folder}/log/%n
SlurmdSpoolDir={folder}/spool.%n
ProctrackType=proctrack/linuxproc
TaskPlugin=task/none
SwitchType=switch/none
MpiDefault=none
JobAcctGatherType=jobacct_gather/none
AccountingStorageType=accounting_storage/none
SelectType=select/cons_tres
SelectTypeParameters=CR_Core
SchedulerParameters=sched_interval=2,bf_interval=2,sched_min_interval=0
ReturnToService=2
SlurmdTimeout=10
MessageTimeout=10
KillWait=2
InactiveLimit=0
SlurmdParameters=config_overrides
"""
NODE = "NodeName={name} NodeHostname={host} NodeAddr=127.0.0.1 Port={port} CPUs={slots} State=UNKNOWN\n"
PARTITION = "PartitionName=farm Nodes=ALL Default=YES MaxTime=INFINITE State=UP\n"


def why_not() -> Optional[str]:
    """Why no cluster can be started here, if so."""
    missing = [tool for tool in TOOLS if shutil.which(tool) is None]
    if missing:
        return f"{', '.join(missing)} not installed"
    if os.geteuid() != 0:
        return "root is needed"
    probe = subprocess.run(["unshare", "--pid", "--fork", "--mount-proc", "true"], capture_output=True, check=False)
    return "there is no namespace of processes" if probe.returncode else None


def free_ports(count: int) -> List[int]:
    """Ports of the loopback that nobody listens at."""
    sockets = [socket.create_server(("127.0.0.1", 0)) for _ in range(count)]
    ports: List[int] = [own.getsockname()[1] for own in sockets]
    for own in sockets:
        own.close()
    return ports


def end_namespace(unshare: subprocess.Popen[bytes]) -> None:
    """Kills the first process of a namespace, and with it all others there. `unshare`, which started it, ends then."""
    for child in Path(f"/proc/{unshare.pid}/task/{unshare.pid}/children").read_text().split():
        os.kill(int(child), signal.SIGKILL)
    unshare.wait()


class Cluster:
    """A cluster in a folder, of nodes `n1`, `n2` and so on, from the start of a `with` block to its end."""

    def __init__(self, folder: Path, nodes: int, slots: int) -> None:
        self.folder, self.slots = folder, slots
        self.names = [f"n{number + 1}" for number in range(nodes)]
        self.env = {"SLURM_CONF": str(folder / "conf/slurm.conf")}
        self.controllers: List[subprocess.Popen[bytes]] = []
        self.nodes: Dict[str, subprocess.Popen[bytes]] = {}

    def __enter__(self) -> Cluster:
        self._write()
        try:
            munge = self.folder / "munge"
            self.controllers.append(
                self._start(
                    "munged",
                    "--foreground",
                    f"--key-file={munge}/key",
                    f"--socket={munge}/socket",
                    f"--pid-file={self.folder}/munged.pid",
                    f"--log-file={self.folder}/log/munged",
                    f"--seed-file={munge}/seed",
                )
            )
            self._wait("munged", lambda: (munge / "socket").exists())
            self.controllers.append(self._start("slurmctld", "-D"))
            for name in self.names:
                words = ("unshare", "--pid", "--fork", "--mount-proc", "--kill-child", "slurmd", "-D", "-N", name)
                self.nodes[name] = self._start(*words)
            self._wait("the nodes", lambda: self._idle() == len(self.names))
        except BaseException:
            self._stop()
            raise
        return self

    def __exit__(
        self, kind: Optional[Type[BaseException]], error: Optional[BaseException], traceback: Optional[TracebackType]
    ) -> None:
        self._stop()

    def kill(self, name: str) -> None:
        """A node dies, and the controller is told, which would notice it after half a minute."""
        end_namespace(self.nodes.pop(name))
        run(["scontrol", "update", f"NodeName={name}", "State=DOWN", "Reason=killed"], env=self.env)

    def running_at(self, name: str) -> int:
        """How many tasks run at a node."""
        listed = run(
            ["squeue", "--noheader", "--array", f"--nodelist={name}", "--states=R", "--format=%i"], env=self.env
        )
        return len(listed.stdout.split())

    def _write(self) -> None:
        """The folders, the key and the configuration."""
        for name in ("munge", "state", "log", "conf"):
            (self.folder / name).mkdir(parents=True)
        for path in (self.folder, self.folder / "munge"):
            path.chmod(0o711)  # munged wants a way to its socket
        key = self.folder / "munge/key"
        key.touch(0o600)
        key.write_bytes(os.urandom(128))
        host, (port, *ports) = socket.gethostname().split(".")[0], free_ports(1 + len(self.names))
        text = CONFIGURATION.format(host=host, port=port, folder=self.folder)
        for name, own in zip(self.names, ports):
            text += NODE.format(name=name, host=host, port=own, slots=self.slots)
        (self.folder / "conf/slurm.conf").write_text(text + PARTITION)

    def _start(self, *words: str) -> subprocess.Popen[bytes]:
        with open(self.folder / "log/output", "ab") as out:
            env = {**os.environ, **self.env}
            return subprocess.Popen(words, stdin=subprocess.DEVNULL, stdout=out, stderr=out, env=env)

    def _idle(self) -> int:
        listed = run(["sinfo", "--noheader", "--Node", "--states=idle", "--format=%N"], status=None, env=self.env)
        return len(listed.stdout.split())

    def _wait(self, what: str, is_there: Callable[[], bool]) -> None:
        end = time.monotonic() + SECONDS_TO_START
        while not is_there():
            if time.monotonic() > end:
                log = (self.folder / "log/output").read_text(errors="replace").splitlines()
                raise Failure(f"{what} did not start\n" + "\n".join(log[-20:]))
            time.sleep(0.2)

    def _stop(self) -> None:
        """Ends what was started: the nodes at once, then the controller, then munged."""
        for node in self.nodes.values():
            end_namespace(node)
        for controller in reversed(self.controllers):
            controller.terminate()
            try:
                controller.wait(20)
            except subprocess.TimeoutExpired:
                controller.kill()
                controller.wait()
