#!/usr/bin/env python3
"""Starts RabbitMQ nodes on this machine that form a cluster, all on loopback, and stops them by their pids.

    nodes.py [--nodes N] [--folder FOLDER]

Prints the engine's address, as adapter.py and the other scripts take it, and runs until it is interrupted. Files and
logs of the nodes are in FOLDER, or else in a temporary folder that is removed at the end.
"""

import argparse
import os
import secrets
import signal
import socket
import subprocess
import sys
import tempfile
import time
from dataclasses import dataclass, field
from pathlib import Path
from typing import Dict, List, Optional

# Debian's `rabbitmq-server` on the path changes to a user and to folders of its own; this is the script behind it.
SERVER = Path("/usr/lib/rabbitmq/bin/rabbitmq-server")
LOOPBACK = "127.0.0.1"
BOOT_SECONDS, STOP_SECONDS = 120, 30


class NodeFault(Exception):
    """A node that did not start or stop in time."""


def free_ports(count: int) -> List[int]:
    """Ports of loopback that nobody listens on."""
    sockets = [socket.socket() for _ in range(count)]
    for each in sockets:
        each.bind((LOOPBACK, 0))
    ports = [each.getsockname()[1] for each in sockets]
    for each in sockets:
        each.close()
    return ports


def is_open(port: int) -> bool:
    """Whether somebody listens on a port of loopback."""
    with socket.socket() as probe:
        probe.settimeout(1)
        return probe.connect_ex((LOOPBACK, port)) == 0


@dataclass
class Node:
    """One node: its name, its folder and its ports."""
    name: str
    folder: Path
    amqp: int
    stream: int
    distribution: int
    process: Optional[subprocess.Popen] = None

    def environment(self, common: Dict[str, str]) -> Dict[str, str]:
        """What the server reads: names, ports and folders of its own, and no file of the system's service."""
        return {
            **common,
            "RABBITMQ_NODENAME": self.name,
            "RABBITMQ_NODE_IP_ADDRESS": LOOPBACK,
            "RABBITMQ_NODE_PORT": str(self.amqp),
            "RABBITMQ_DIST_PORT": str(self.distribution),
            "RABBITMQ_MNESIA_BASE": str(self.folder / "data"),
            "RABBITMQ_LOG_BASE": str(self.folder / "log"),
            "RABBITMQ_GENERATED_CONFIG_DIR": str(self.folder / "config"),
            "RABBITMQ_PID_FILE": str(self.folder / "pid"),
            "RABBITMQ_ENABLED_PLUGINS_FILE": str(self.folder / "plugins"),
            "RABBITMQ_CONFIG_FILE": str(self.folder / "rabbitmq.conf"),
            "RABBITMQ_ADVANCED_CONFIG_FILE": str(self.folder / "none.config"),
            "RABBITMQ_CONF_ENV_FILE": str(self.folder / "none.conf"),
            # Two schedulers: three nodes on one machine leave room for others.
            "RABBITMQ_SERVER_ADDITIONAL_ERL_ARGS": "+S 2:2 -kernel inet_dist_use_interface {127,0,0,1}",
        }

    def write_files(self, names: List[str]) -> None:
        """The configuration: listeners on loopback alone, and the names of all nodes."""
        self.folder.mkdir(parents=True, exist_ok=True)
        (self.folder / "plugins").write_text("[rabbitmq_stream].\n", encoding="utf-8")
        peers = [f"cluster_formation.classic_config.nodes.{at} = {name}" for at, name in enumerate(names, 1)]
        lines = [f"stream.listeners.tcp.1 = {LOOPBACK}:{self.stream}",
                 "cluster_formation.peer_discovery_backend = classic_config", *peers,
                 "disk_free_limit.absolute = 100MB", "log.file.level = warning"]
        (self.folder / "rabbitmq.conf").write_text("\n".join(lines) + "\n", encoding="utf-8")


@dataclass
class Cluster:
    """Nodes that form a cluster, and the port mapper of their own that Erlang needs."""
    folder: Path
    nodes: List[Node] = field(default_factory=list)
    mapper: Optional[subprocess.Popen] = None
    mapper_port: int = 0

    @classmethod
    def prepared(cls, folder: Path, count: int) -> "Cluster":
        """A cluster whose files are written and whose nodes have not been started."""
        ports = free_ports(3 * count + 1)
        nodes = [Node(f"scribmon{at + 1}@localhost", folder / f"node{at + 1}", *ports[3 * at:3 * at + 3])
                 for at in range(count)]
        cluster = cls(folder, nodes, None, ports[-1])
        cookie = folder / ".erlang.cookie"
        cookie.write_text(secrets.token_hex(16), encoding="utf-8")
        cookie.chmod(0o400)
        for node in nodes:
            node.write_files([each.name for each in nodes])
        return cluster

    def environment(self) -> Dict[str, str]:
        """What all processes share. The home has the cookie."""
        return {"PATH": os.environ["PATH"], "HOME": str(self.folder), "LANG": "C.UTF-8",
                "ERL_EPMD_ADDRESS": LOOPBACK, "ERL_EPMD_PORT": str(self.mapper_port)}

    def address(self) -> str:
        """The engine's address for the other scripts."""
        return "rabbit:" + ",".join(f"{LOOPBACK}:{node.amqp}" for node in self.nodes)

    def start(self) -> None:
        """Starts the port mapper and then the nodes one after another, since the first one forms the cluster."""
        self.mapper = subprocess.Popen(["epmd", "-address", LOOPBACK, "-port", str(self.mapper_port)],
                                       env=self.environment(), start_new_session=True,
                                       stdout=subprocess.DEVNULL, stderr=subprocess.DEVNULL)
        wait_for(self.mapper_port, self.mapper, "epmd")
        for node in self.nodes:
            self.start_node(node)
            wait_for(node.amqp, node.process, node.name)

    def start_node(self, node: Node) -> None:
        """Starts a node in the foreground of a process group of its own, and does not wait for it."""
        with open(node.folder / "output", "ab") as output:
            node.process = subprocess.Popen([str(SERVER)], env=node.environment(self.environment()), cwd=node.folder,
                                            start_new_session=True, stdin=subprocess.DEVNULL, stdout=output,
                                            stderr=output)

    def restart(self, nodes: List[Node]) -> None:
        """Starts nodes that were killed, all at once: each waits for the others."""
        for node in nodes:
            self.start_node(node)
        for node in nodes:
            wait_for(node.amqp, node.process, node.name)

    def stop(self) -> None:
        """Ends all nodes, and then the port mapper."""
        running = [node for node in self.nodes if node.process]
        for node in running:
            send_group(node.process, signal.SIGTERM)
        for node in running:
            end_group(node.process)
            node.process = None
        if self.mapper:
            send_group(self.mapper, signal.SIGTERM)
            end_group(self.mapper)
            self.mapper = None


def kill_node(node: Node) -> None:
    """Kills a node at once, as a crash would."""
    send_group(node.process, signal.SIGKILL)
    node.process.wait(timeout=STOP_SECONDS)
    node.process = None


def send_group(process: subprocess.Popen, number: int) -> None:
    """Sends a signal to the process group that a process of ours leads."""
    try:
        os.killpg(process.pid, number)
    except ProcessLookupError:
        pass


def end_group(process: subprocess.Popen) -> None:
    """Waits until a process has ended, and kills its group where it takes too long or left somebody behind."""
    try:
        process.wait(timeout=STOP_SECONDS)
    except subprocess.TimeoutExpired:
        pass
    send_group(process, signal.SIGKILL)
    process.wait(timeout=STOP_SECONDS)


def wait_for(port: int, process: subprocess.Popen, name: str) -> None:
    """Waits until a port is open, for a limited time and as long as its process runs."""
    limit = time.monotonic() + BOOT_SECONDS
    while time.monotonic() < limit:
        if process.poll() is not None:
            raise NodeFault(f"{name} ended with status {process.returncode}")
        if is_open(port):
            return
        time.sleep(0.2)
    raise NodeFault(f"{name} did not listen within {BOOT_SECONDS} s")


def run(folder: Path, count: int) -> None:
    """Starts the nodes, prints the address, and waits for a signal."""
    cluster = Cluster.prepared(folder, count)
    try:
        cluster.start()
        print(cluster.address(), flush=True)
        signal.sigwait({signal.SIGINT, signal.SIGTERM})
    finally:
        cluster.stop()


def main() -> int:
    parser = argparse.ArgumentParser(description=__doc__, formatter_class=argparse.RawDescriptionHelpFormatter)
    parser.add_argument("--nodes", metavar="N", type=int, default=3, help="how many nodes (default: 3)")
    parser.add_argument("--folder", metavar="FOLDER", type=Path, help="where their files are kept")
    options = parser.parse_args()
    if not SERVER.exists():
        parser.error(f"{SERVER} is not there: install the package rabbitmq-server")
    # Blocked here and in no child, so that the wait above takes them.
    signal.pthread_sigmask(signal.SIG_BLOCK, {signal.SIGINT, signal.SIGTERM})
    try:
        if options.folder:
            options.folder.mkdir(parents=True, exist_ok=True)
            run(options.folder.resolve(), options.nodes)
        else:
            with tempfile.TemporaryDirectory(prefix="scribmon-nodes-") as folder:
                run(Path(folder), options.nodes)
    except NodeFault as fault:
        print(f"nodes.py: {fault}", file=sys.stderr)
        return 1
    return 0


if __name__ == "__main__":
    sys.exit(main())
