"""Tests of the sessions for trials. They need no broker; the last class needs the program that SCRIBMON names, and is
left out without it."""

import os
import random
import subprocess
import unittest

import memory_engine  # the path of the example's modules
from workload import GATEWAY, MODULES, by_service, make_sessions, module_text

PROGRAM = os.environ.get("SCRIBMON")


def script_of(sessions):
    lines = []
    for name in MODULES:
        lines += ["put", module_text(name).rstrip(), "%%"]
    for session in sessions:
        lines.append(f"open {session.name} {session.protocol}")
        lines += [f"{report.verb} {report.session} {report.arguments}" for report in session.reports]
        lines.append(f"close {session.name}")
    return "\n".join(lines) + "\n"


class SessionsTest(unittest.TestCase):
    def test_a_seed_gives_the_same_sessions(self):
        self.assertEqual(make_sessions(7, 20, 0.5), make_sessions(7, 20, 0.5))
        self.assertNotEqual(make_sessions(7, 20, 0.5), make_sessions(8, 20, 0.5))

    def test_each_reception_has_a_send_before_it(self):
        for session in make_sessions(1, 300, 0.5):
            sent = {}
            for report in session.reports:
                pair = tuple(report.arguments.split()[:2])
                if report.verb == "send":
                    sent[pair] = sent.get(pair, 0) + 1
                elif report.verb == "recv":
                    sent[pair] = sent.get(pair, 0) - 1
                    self.assertGreaterEqual(sent[pair], 0)

    def test_each_service_keeps_the_order_of_its_reports(self):
        sessions = make_sessions(3, 50, 0.3)
        services = by_service(random.Random(3), sessions)
        for session in sessions:
            for service, reports in services.items():
                own = [report for report in reports if report.session == session.name]
                wanted = [report for report in session.reports if report.service == service]
                self.assertEqual(own, [session.opening()] if service == GATEWAY else wanted)


@unittest.skipUnless(PROGRAM, "SCRIBMON names no program")
class WithTheProgram(unittest.TestCase):
    def closes(self, sessions):
        done = subprocess.run([PROGRAM, "watch", "--names"], input=script_of(sessions).encode(), capture_output=True,
                              check=True, timeout=60)
        return [line for line in done.stdout.decode().splitlines() if line.startswith("close ")]

    def test_right_sessions_are_complete(self):
        sessions = make_sessions(5, 200, 0)
        self.assertEqual(self.closes(sessions), [f"close {session.name}: complete" for session in sessions])

    def test_some_spoiled_sessions_are_offences(self):
        closes = self.closes(make_sessions(5, 200, 1))
        self.assertGreater(sum(" offence at " in line for line in closes), 100)


if __name__ == "__main__":
    unittest.main()
