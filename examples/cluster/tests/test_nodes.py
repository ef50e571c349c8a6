"""Tests of the files and settings of nodes. They start none."""

import stat
import tempfile
import unittest
from pathlib import Path

import memory_engine  # the path of the example's modules
from nodes import Cluster


class PreparedTest(unittest.TestCase):
    def setUp(self):
        folder = tempfile.TemporaryDirectory()
        self.addCleanup(folder.cleanup)
        self.folder = Path(folder.name)
        self.cluster = Cluster.prepared(self.folder, 3)

    def test_names_ports_and_folders_differ(self):
        nodes = self.cluster.nodes
        ports = [port for node in nodes for port in (node.amqp, node.stream, node.distribution)]
        self.assertEqual(len({*ports, self.cluster.mapper_port}), 10)
        self.assertEqual(len({node.name for node in nodes}), 3)
        self.assertEqual(len({node.folder for node in nodes}), 3)

    def test_all_listen_on_loopback(self):
        for node in self.cluster.nodes:
            settings = node.environment(self.cluster.environment())
            self.assertEqual(settings["RABBITMQ_NODE_IP_ADDRESS"], "127.0.0.1")
            self.assertEqual(settings["ERL_EPMD_ADDRESS"], "127.0.0.1")
            self.assertIn("inet_dist_use_interface {127,0,0,1}", settings["RABBITMQ_SERVER_ADDITIONAL_ERL_ARGS"])
            lines = (node.folder / "rabbitmq.conf").read_text().splitlines()
            self.assertEqual([line for line in lines if "listeners" in line],
                             [f"stream.listeners.tcp.1 = 127.0.0.1:{node.stream}"])

    def test_no_file_is_outside_the_folder(self):
        for node in self.cluster.nodes:
            settings = node.environment(self.cluster.environment())
            paths = {name: value for name, value in settings.items() if value.startswith("/") and name != "PATH"}
            self.assertGreater(len(paths), 8)
            self.assertEqual([value for value in paths.values() if not value.startswith(str(self.folder))], [])

    def test_only_the_owner_reads_the_cookie(self):
        mode = (self.folder / ".erlang.cookie").stat().st_mode
        self.assertEqual(stat.S_IMODE(mode), 0o400)

    def test_the_address_names_each_node(self):
        kind, _, hosts = self.cluster.address().partition(":")
        self.assertEqual(kind, "rabbit")
        self.assertEqual(hosts.split(","), [f"127.0.0.1:{node.amqp}" for node in self.cluster.nodes])


if __name__ == "__main__":
    unittest.main()
