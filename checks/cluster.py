#!/usr/bin/env python3
"""Runs the monitor over a cluster of three RabbitMQ nodes on loopback, and compares its replies with one `watch`.

    cluster.py [--program FILE] [--seed N] [--keep FOLDER]

1. 500 sessions over four partitions, a fifth of them spoiled, with doubled and swapped lines and twelve edits: the
   replies in the sink must be those of one `watch` over the same lines in one order, by their tags.
2. The same with other sessions, while a monitor, an adapter, one node and all three nodes are killed and started again,
   and with two monitors of one partition: also then, and each node's copy of each stream must have the same bytes.
3. 300 right sessions, whose services are processes that don't wait for each other: no reply may be an offence, and each
   session must be complete. Without `--hold` some must not be, or the trial shows nothing.
4. The first part over Kafka's engine, on the mock brokers of its client library.

It uses examples/cluster, and takes at most ten minutes. It starts all that it uses, on loopback, in a folder of its own
under the system's temporary folder, and stops it by its pids. Status: 0 fine; 1 something is wrong; 2 a bad command
line, or no program; 77 a package is not installed, whose name is printed.
"""

import argparse
import contextlib
import hashlib
import importlib.util
import os
import random
import re
import shutil
import signal
import subprocess
import sys
import tempfile
import time
from concurrent.futures import ThreadPoolExecutor
from dataclasses import dataclass, field
from pathlib import Path
from typing import Callable, Dict, Iterator, List, Set, Tuple

TOP = Path(__file__).resolve().parent.parent
PROGRAM = TOP / "crates" / "scribmon" / "out" / "scribmon"
sys.path.insert(0, str(TOP / "examples" / "cluster"))

from disorder import DisorderedEngine
from editor import append_edit, put_marks
from engine import Engine, EngineFault, Message, open_engine
from nodes import SERVER, Cluster, Node, NodeFault, kill_node
from oracle import (PartitionScript, by_tag, differences, is_sweep, partition_script, run_watch, swept_sums,
                    whole_script)
from processes import Adapters, ProcessFault, Settings, SinkProcess, end_process
from producer import Producer
from records import Line, Stream, Streams
from workload import GATEWAY, MODULES, Report, Session, by_service, make_sessions, module_text

LIMIT_SECONDS = 600
SIGNALS = (signal.SIGALRM, signal.SIGTERM, signal.SIGINT)
# More lines than a partition gets in a wave or in part 3. One monitor of all partitions gets more between two events of
# a session, so its limit is higher.
PARTITIONS, HOLD, WHOLE_HOLD = 4, 2_000, 1_000_000
WAVES, WAVE_SESSIONS = 5, 100
RIGHT_SESSIONS, LINES_A_MESSAGE = 300, 10
# 127.0.0.1 and ::1, as the kernel's tables have them.
LOOPBACK = {"0100007F", "00000000000000000000000001000000"}
KILL_PAUSE, DOWN_SECONDS = 0.3, 2
REPLY_SECONDS, SERVICE_SECONDS, COPY_SECONDS = 120, 180, 60
MISSING_STATUS = 77
DEBIAN_PYTHON = "/usr/bin/python3"
Edit = Tuple[str, str]
# The edit and the partition in whose log its mark is left out.
LOST_MARK = (6, 1)
# The service that asks for verdicts between two edits.
AUDITOR = "auditor"


class CheckFault(Exception):
    """Something that the check found."""


def missing_packages() -> List[str]:
    """The packages of Debian that are needed and not installed."""
    wanted = {"python3-amqp": importlib.util.find_spec("amqp"),
              "python3-confluent-kafka": importlib.util.find_spec("confluent_kafka"),
              "rabbitmq-server": SERVER.exists()}
    return [package for package, found in wanted.items() if not found]


def planned_edits() -> List[List[Edit]]:
    """The twelve edits, those of each wave together."""
    shop, retries, travel = module_text("shop"), module_text("retries"), module_text("travel")
    return [
        # Sessions of shop.Order that ship without a carrier become offences, and right ones again in the next wave.
        [("put", shop.replace("ship(Date)", "ship(Date,Carrier)")),
         ("put", "module broken; global protocol P(role A) {"), ("withdraw", "nosuch")],
        [("put", shop), ("put", travel)],
        [("profile", "reception"), ("put", travel), ("profile", "plain")],
        # Sessions of retries.Retries are withdrawn, and right ones again behind the next edit.
        [("withdraw", "retries"), ("put", retries)],
        [("put", retries.replace("busy()", "busy(Int)")), ("put", retries)],
    ]


@dataclass
class Trial:
    """One generation of logs with its adapters and its sink."""
    settings: Settings
    places: List[Tuple[int, int]]
    engine: Engine
    adapters: Adapters = field(init=False)
    sink: SinkProcess = field(init=False)

    def __post_init__(self) -> None:
        self.adapters = Adapters(self.settings, self.places)
        self.sink = SinkProcess(self.settings)
        self.adapters.start()

    @property
    def streams(self) -> Streams:
        return self.settings.streams

    def kill(self) -> None:
        self.adapters.kill()
        self.sink.kill()


@dataclass
class Services:
    """The producers of a trial, each with a thread and an engine of its own that doubles and swaps."""
    address: str
    streams: Streams
    pick: random.Random
    # The longest pause between two appends of a service. With one, sessions last long enough to be disturbed.
    pause: float
    producers: Dict[str, Producer] = field(default_factory=dict)
    planned: Set[Line] = field(default_factory=set)
    _confirmed: List[int] = field(default_factory=list)
    _numbers: Dict[Tuple[str, str], int] = field(default_factory=dict)
    _engines: List[DisorderedEngine] = field(default_factory=list)

    def producer(self, service: str) -> Producer:
        if service not in self.producers:
            engine = DisorderedEngine(open_engine(self.address), self.pick.randrange(1 << 30))
            self._engines.append(engine)
            self.producers[service] = Producer(engine, self.streams, service)
        return self.producers[service]

    def begin(self, reports: Dict[str, List[Report]]) -> Callable[[], None]:
        """Starts to publish what each service reports, and returns a call that waits for all confirmations."""
        jobs = [(self.producer(service), lines, self.pick.randrange(1 << 30)) for service, lines in reports.items()]
        for lines in reports.values():
            for report in lines:
                self._plan(report)
        pool = ThreadPoolExecutor(len(jobs))
        futures = [pool.submit(self._publish, *job) for job in jobs]

        def finish() -> None:
            for future in futures:
                future.result(SERVICE_SECONDS)
            pool.shutdown()
        return finish

    def unconfirmed(self) -> int:
        """How many lines of those that are planned have not been confirmed."""
        return len(self.planned) - sum(self._confirmed)

    def _publish(self, producer: Producer, reports: List[Report], seed: int) -> None:
        """Publishes a service's reports, some at a time."""
        pick, at = random.Random(seed), 0
        while at < len(reports):
            some = reports[at:at + pick.randint(1, 20)]
            at += len(some)
            for report in some:
                producer.report(report.session, report.verb, report.arguments)
            producer.flush()
            self._confirmed.append(len(some))
            time.sleep(pick.random() * self.pause)

    def _plan(self, report: Report) -> None:
        """What must be in the logs, with numbers counted here and not by the producer."""
        key = (report.session, report.service)
        self._numbers[key] = self._numbers.get(key, 0) + 1
        self.planned.add(Line(report.session, report.service, self._numbers[key], report.verb, report.arguments))

    def disorder(self) -> Tuple[int, int]:
        return sum(each.doubled for each in self._engines), sum(each.swapped for each in self._engines)


def make_edits(trial: Trial, edits: List[Edit], pick: random.Random) -> None:
    """Appends edits, with a mark behind each. Some marks are doubled, some come late, and one is lost in one log."""
    for verb, argument in edits:
        number = append_edit(trial.engine, trial.streams, verb, argument)
        marked = [at for at in range(PARTITIONS) if (number, at) != LOST_MARK]
        put_marks(trial.engine, trial.streams, number, marked)
        if number % 3 == 0:
            put_marks(trial.engine, trial.streams, number, [pick.choice(marked)])
        if number % 4 == 0 and number:
            put_marks(trial.engine, trial.streams, number - 1, range(PARTITIONS))
        time.sleep(pick.random() * 0.5)


def run_waves(trial: Trial, services: Services, sessions: List[Session], actions: List[Callable[[], None]]) -> None:
    """The sessions in waves: services report while edits and an action happen. Then earlier ones are closed."""
    pick = services.pick
    make_edits(trial, [("put", module_text(name)) for name in MODULES], pick)
    earlier: List[Session] = []
    for at, edits in enumerate(planned_edits()):
        wave = sessions[at * WAVE_SESSIONS:(at + 1) * WAVE_SESSIONS]
        reports = by_service(pick, wave)
        if ("withdraw", "retries") in edits:
            # While a protocol is missing its openings are refused, and what is reported of such a session may wait.
            services.begin({GATEWAY: reports.pop(GATEWAY)})()
        finish = services.begin(reports)
        time.sleep(0.3)
        make_edits(trial, edits[:1], pick)
        services.begin({AUDITOR: [Report(session.name, AUDITOR, "ask") for session in earlier]})()
        actions[at]()
        make_edits(trial, edits[1:], pick)
        finish()
        # All reports of a session are confirmed before it is closed.
        services.begin({GATEWAY: [Report(session.name, GATEWAY, "ask") for session in wave]
                        + [Report(session.name, GATEWAY, "close") for session in earlier]})()
        earlier = pick.sample(wave, WAVE_SESSIONS * 4 // 5)
    services.begin({GATEWAY: [Report(session.name, GATEWAY, "ask") for session in sessions]})()


def read_whole(engine: Engine, stream: Stream, patience: float) -> List[Message]:
    """The messages of one copy of a stream, up to its last."""
    last, messages = engine.last(stream, patience), []
    if last < 0:
        raise CheckFault(f"{stream} is empty")
    for message in engine.read(stream, 0, 1):
        if message is not None:
            messages.append(message)
            if message.offset >= last:
                return messages
    raise CheckFault(f"{stream} does not end")


def wait_for_replies(trial: Trial, count: int) -> List[str]:
    """The sink's replies once it has as many as there must be, and those that came in the second behind."""
    limit = time.monotonic() + REPLY_SECONDS
    while len(trial.sink.replies()) < count and time.monotonic() < limit:
        time.sleep(0.3)
    time.sleep(1)
    return trial.sink.replies()


def read_scripts(trial: Trial, lines: int) -> Tuple[List[PartitionScript], List[Message]]:
    """The scripts of all partitions, and the edits. A copy may lag, so it is read again while it lacks lines."""
    limit = time.monotonic() + COPY_SECONDS
    while True:
        logs = [read_whole(trial.engine, trial.streams.log(at), 5) for at in range(PARTITIONS)]
        edits = read_whole(trial.engine, trial.streams.edits(), 5)
        scripts = [partition_script(at, log) for at, log in enumerate(logs)]
        is_whole = sum(len(script.lines) for script in scripts) >= lines and all(
            max(script.swept, default=0) < len(edits) for script in scripts)
        if is_whole or time.monotonic() > limit:
            return scripts, edits
        time.sleep(1)


def check_logs(scripts: List[PartitionScript], planned: Set[Line], streams: Streams) -> None:
    """The logs must have what the services reported, each line in its session's log, and nothing else."""
    found = {line for script in scripts for line in script.lines}
    if found != planned:
        raise CheckFault(f"{len(planned - found)} lines are lost, {len(found - planned)} were never reported")
    for at, script in enumerate(scripts):
        if any(streams.partition_of(line.session) != at for line in script.lines):
            raise CheckFault(f"log {at} has a line of another partition")


def compare(trial: Trial, planned: Set[Line]) -> Tuple[List[PartitionScript], Dict[str, str]]:
    """Compares the sink's replies with those of one `watch`. Returns the partitions' scripts and the replies."""
    scripts, edits = read_scripts(trial, len(planned))
    check_logs(scripts, planned, trial.streams)
    replies, released = run_watch(trial.settings.program, whole_script(scripts, edits), WHOLE_HOLD)
    if not released.endswith(" 0 released by the limit"):
        raise CheckFault(f"one watch of all lines reports {released}")
    wanted = by_tag(replies)
    sweeps = sum(len(script.swept) for script in scripts)
    due = len(planned) + len(edits) + sweeps
    found = by_tag(wait_for_replies(trial, due))
    if len(found) != due:
        raise CheckFault(f"the sink has {len(found)} replies and not {due}")
    if differing := differences(found, wanted):
        raise CheckFault(f"{len(differing)} replies differ, first {differing[:3]}")
    sums = swept_sums(scripts, found)
    if wrong := [tag for tag in sums if sums[tag] != wanted[tag]]:
        raise CheckFault(f"sweeps differ: {[(tag, sums[tag], wanted[tag]) for tag in wrong]}")
    print(f"  {due} replies: {len(planned)} to lines, {len(edits)} to edits, {sweeps} to sweeps; none differs from one "
          f"watch; the sums of {len(sums)} sweeps are equal")
    return scripts, found


def check_counts(counts: List[str]) -> Tuple[int, int]:
    """How many events waited in the monitors, and how many lines adapters dropped. Nothing may be released or left."""
    text = "\n".join(counts)
    released = [int(found) for found in re.findall(r"(\d+) released by the limit", text)]
    left = [int(found) for found in re.findall(r"(\d+) still early", text)]
    if not released or any(released + left) or len(released) != len(left):
        raise CheckFault(f"something was released by the limit, or is left: {counts}")
    waited = sum(int(found) for found in re.findall(r"(\d+) waited", text))
    return waited, sum(int(found) for found in re.findall(r"(\d+) doubled", text))


def report_trial(services: Services, scripts: List[PartitionScript], found: Dict[str, str], counts: List[str]) -> None:
    """Prints what the trial had, and fails where it lacks what it is to show."""
    waited, dropped = check_counts(counts)
    doubled, swapped = services.disorder()
    early = sum(script.early for script in scripts)
    marks, swept = sum(script.marks for script in scripts), sum(len(script.swept) for script in scripts)
    edits = [text for tag, text in found.items() if tag.startswith("@edit.")]
    refused = sum(text.startswith("refused") for text in edits)
    withdrawn = sum(text.endswith(" withdrawn") for text in found.values())
    judged = sum(int(text.split()[1]) for tag, text in found.items() if is_sweep(tag))
    offences = sum(" offence at " in text for text in found.values())
    print(f"  put in: {doubled} doubled and {swapped} swapped messages; in the logs: "
          f"{sum(script.doubled for script in scripts)} doubled lines, {early} early; adapters dropped {dropped}")
    print(f"  {marks} marks in the logs, {marks - swept} of them doubled or late, and one lost")
    print(f"  {len(edits)} edits, {refused} of them refused; {judged} conversations judged again by sweeps; {offences} "
          f"replies have an offence, {withdrawn} are withdrawn; {waited} events waited, 0 released by the limit")
    if not (doubled and swapped and early and refused and judged and offences and withdrawn and waited
            and marks > swept and swept == PARTITIONS * len(edits) - 1):
        raise CheckFault("the trial lacks something that it is to show")


def node_copies(cluster: Cluster, stream: Stream) -> List[Tuple[int, str]]:
    """The number of messages and the digest of each node's copy of a stream."""
    def digest(port: int) -> Tuple[int, str]:
        engine = open_engine(f"rabbit:127.0.0.1:{port}")
        messages = read_whole(engine, stream, 5)
        engine.close()
        total = hashlib.sha256()
        for message in messages:
            total.update(b"%d %d\n%s" % (message.offset, len(message.body), message.body))
        return len(messages), total.hexdigest()
    with ThreadPoolExecutor(len(cluster.nodes)) as pool:
        return list(pool.map(digest, [node.amqp for node in cluster.nodes]))


def check_copies(cluster: Cluster, streams: Streams) -> None:
    """Each node's copy of each stream must have the same messages. A copy may lag for a while."""
    messages = 0
    for stream in streams.all():
        limit = time.monotonic() + COPY_SECONDS
        copies = node_copies(cluster, stream)
        while len(set(copies)) > 1 and time.monotonic() < limit:
            time.sleep(1)
            copies = node_copies(cluster, stream)
        if len(set(copies)) > 1:
            raise CheckFault(f"the copies of {stream} differ: {copies}")
        messages += copies[0][0]
    print(f"  {len(streams.all())} streams with {messages} messages: the {len(cluster.nodes)} copies of each are equal")


def create_streams(settings: Settings) -> None:
    engine = open_engine(settings.address)
    engine.create(settings.streams.all())
    engine.close()


@contextlib.contextmanager
def started(settings: Settings, places: List[Tuple[int, int]]) -> Iterator[Trial]:
    """A trial whose processes are ended, however it ends."""
    trial = Trial(settings, places, open_engine(settings.address))
    try:
        yield trial
    finally:
        trial.kill()
        trial.engine.close()


def finish_trial(trial: Trial, services: Services) -> None:
    """Compares, stops the processes, and reports."""
    scripts, found = compare(trial, services.planned)
    counts, sink_counts = trial.adapters.stop(), trial.sink.stop()
    report_trial(services, scripts, found, counts)
    print(f"  {sink_counts}; {trial.adapters.starts} starts of {len(trial.places)} adapters")


def sessions_with_edits(settings: Settings, cluster: Cluster, seed: int) -> None:
    """Part 1: doubled lines, swapped lines and edits."""
    print("1. 500 sessions, four partitions, doubled and swapped lines, edits", flush=True)
    create_streams(settings)
    undisturbed_trial(settings, seed)
    check_copies(cluster, settings.streams)


def undisturbed_trial(settings: Settings, seed: int) -> None:
    """All sessions and edits with an adapter for each partition, and the comparison."""
    with started(settings, [(at, 0) for at in range(PARTITIONS)]) as trial:
        services = Services(settings.address, settings.streams, random.Random(seed), 0)
        run_waves(trial, services, make_sessions(seed, WAVES * WAVE_SESSIONS, 0.2), [lambda: None] * WAVES)
        finish_trial(trial, services)


def kills(trial: Trial, services: Services, cluster: Cluster) -> List[Callable[[], None]]:
    """What is killed in each wave: a monitor, an adapter, one node, all nodes, and one of two adapters of a partition.

    An adapter that is killed leaves its monitor without input, and so ends it.
    """
    def kill(what: str, processes: List[int], nodes: List[Node]) -> None:
        if not services.unconfirmed():
            raise CheckFault(f"nothing was under way when {what} was killed")
        print(f"  {what} is killed, with {services.unconfirmed()} lines not yet confirmed", flush=True)
        for pid in processes:
            os.kill(pid, signal.SIGKILL)
        for node in nodes:
            kill_node(node)
        if nodes:
            time.sleep(DOWN_SECONDS)
            cluster.restart(nodes)

    return [lambda: kill("a monitor", [trial.adapters.monitor_pid((1, 0))], []),
            lambda: kill("an adapter", [trial.adapters.adapter_pid((2, 0))], []),
            lambda: kill("one node", [], [services.pick.choice(cluster.nodes)]),
            lambda: kill("each node", [], cluster.nodes),
            lambda: kill("a second adapter", [trial.adapters.adapter_pid((0, 1))], [])]


def sessions_with_kills(settings: Settings, cluster: Cluster, seed: int) -> None:
    """Part 2: the same with kills, and with two monitors of partition 0."""
    print("2. 500 sessions; a monitor, an adapter, a node and all nodes are killed", flush=True)
    create_streams(settings)
    with started(settings, [(0, 0), (0, 1)] + [(at, 0) for at in range(1, PARTITIONS)]) as trial:
        services = Services(settings.address, settings.streams, random.Random(seed), KILL_PAUSE)
        sessions = make_sessions(seed, WAVES * WAVE_SESSIONS, 0.2)
        run_waves(trial, services, sessions, kills(trial, services, cluster))
        finish_trial(trial, services)
        check_copies(cluster, trial.streams)
        if trial.adapters.starts < len(trial.places) + 3:
            raise CheckFault("an adapter whose monitor was killed, or that was killed itself, was not started again")


def run_services(settings: Settings, sessions: List[Session], pick: random.Random) -> int:
    """Runs each service as a process of producer.py, all at once. Closes the sessions when all have reported."""
    words = settings.words("producer.py") + ["--lines", str(LINES_A_MESSAGE)]
    reports = by_service(pick, sessions)
    processes = {service: subprocess.Popen(words + [service], stdin=subprocess.PIPE, stdout=subprocess.DEVNULL,
                                           start_new_session=True) for service in reports}
    try:
        for service, lines in reports.items():
            processes[service].stdin.write(input_of(lines))
            processes[service].stdin.flush()
        for service in reports.keys() - {GATEWAY}:
            processes[service].stdin.close()
            if end_process(processes[service], SERVICE_SECONDS):
                raise CheckFault(f"the producer {service} failed")
        processes[GATEWAY].stdin.write(input_of([Report(each.name, GATEWAY, "close") for each in sessions]))
        processes[GATEWAY].stdin.close()
        if end_process(processes[GATEWAY], SERVICE_SECONDS):
            raise CheckFault("the producer of the gateway failed")
    finally:
        for process in processes.values():
            end_process(process, 0)
    return sum(len(lines) for lines in reports.values()) + len(sessions)


def input_of(reports: List[Report]) -> bytes:
    return "".join(f"{each.session} {each.verb} {each.arguments}".rstrip() + "\n" for each in reports).encode("ascii")


def right_sessions(settings: Settings, seed: int) -> None:
    """Part 3: right sessions whose reports come in another order."""
    print("3. 300 right sessions, whose services don't wait for each other", flush=True)
    sessions = make_sessions(seed, RIGHT_SESSIONS, 0)
    create_streams(settings)
    with started(settings, [(at, 0) for at in range(PARTITIONS)]) as trial:
        make_edits(trial, [("put", module_text(name)) for name in MODULES], random.Random(seed))
        due = run_services(settings, sessions, random.Random(seed))
        scripts, edits = read_scripts(trial, due)
        due += len(edits) + sum(len(script.swept) for script in scripts)
        found = by_tag(wait_for_replies(trial, due))
        waited, _ = check_counts(trial.adapters.stop())
        trial.sink.stop()
    complete = {f"close {session.name}: complete" for session in sessions}
    wrong = [text for text in found.values() if " offence at " in text or text.startswith("refused")]
    missing = complete - set(found.values())
    unheld, _ = run_watch(settings.program, whole_script(scripts, edits), None)
    # Without --hold an event before its opening is refused, and one before its cause is an offence.
    misjudged = complete - set(by_tag(unheld).values())
    offences = sum(" close " in text and " offence at " in text for text in unheld)
    print(f"  {len(found)} replies, {len(wrong)} with an offence or a refusal, {len(complete - missing)} sessions "
          f"complete; {waited} events waited, 0 released by the limit")
    print(f"  without --hold {len(misjudged)} of these sessions are not complete, {offences} of them with an offence")
    if len(found) != due or wrong or missing or not waited or not misjudged:
        raise CheckFault(f"{len(found)} replies of {due}; {wrong[:3]}; {len(missing)} not complete")


def sessions_over_kafka(program: Path, folder: Path, seed: int) -> None:
    """Part 4: the engine on Kafka, with the mock brokers of its client library. These make topics by themselves."""
    print("4. 500 sessions over the mock brokers of librdkafka", flush=True)
    from confluent_kafka import Producer as Client
    # The brokers listen on ports of loopback, as long as this client lives.
    brokers = Client({"bootstrap.servers": "127.0.0.1:1", "test.mock.num.brokers": 3, "log_level": 0})
    hosts = [f"{broker.host}:{broker.port}" for broker in brokers.list_topics(timeout=10).brokers.values()]
    undisturbed_trial(Settings(program, "kafka:" + ",".join(hosts), Streams("kafka", PARTITIONS), HOLD, folder), seed)


def listening_addresses(groups: Set[int]) -> List[str]:
    """The addresses at which processes of some process groups listen, as Linux lists them."""
    listening = {}
    for table in ("tcp", "tcp6"):
        for line in Path("/proc/net", table).read_text(encoding="ascii").splitlines()[1:]:
            fields = line.split()
            if fields[3] == "0A":
                listening[f"socket:[{fields[9]}]"] = fields[1].partition(":")[0]
    found = []
    for process in Path("/proc").glob("[0-9]*"):
        with contextlib.suppress(OSError):
            if os.getpgid(int(process.name)) in groups:
                found += [listening[name] for name in map(os.readlink, process.glob("fd/*")) if name in listening]
    return found


def check_listeners(cluster: Cluster) -> None:
    """All nodes and the port mapper must listen on loopback alone: each node on three ports."""
    addresses = listening_addresses({node.process.pid for node in cluster.nodes} | {cluster.mapper.pid})
    if set(addresses) - LOOPBACK or len(addresses) < 3 * len(cluster.nodes) + 1:
        raise CheckFault(f"the nodes listen at {addresses}")
    print(f"  {len(addresses)} ports are listened on, all on loopback", flush=True)


def run_parts(program: Path, folder: Path, seed: int) -> None:
    """Starts the nodes and runs all parts over them."""
    cluster = Cluster.prepared(folder, 3)
    begin = time.monotonic()
    try:
        cluster.start()
        print(f"three nodes after {time.monotonic() - begin:.0f} s", flush=True)
        check_listeners(cluster)
        for part, name in ((lambda at: sessions_with_edits(at, cluster, seed), "edits"),
                           (lambda at: sessions_with_kills(at, cluster, seed + 1), "kills"),
                           (lambda at: right_sessions(at, seed + 2), "right")):
            at = time.monotonic()
            part(Settings(program, cluster.address(), Streams(name, PARTITIONS), HOLD, folder))
            print(f"  {time.monotonic() - at:.0f} s", flush=True)
    finally:
        cluster.stop()
    at = time.monotonic()
    sessions_over_kafka(program, folder, seed + 3)
    print(f"  {time.monotonic() - at:.0f} s", flush=True)


def interrupted(number: int, _frame: object) -> None:
    """Ends the check. Further signals must not disturb what stops the processes."""
    for each in SIGNALS:
        signal.signal(each, signal.SIG_IGN)
    raise CheckFault("ten minutes have passed" if number == signal.SIGALRM else f"interrupted by signal {number}")


def arguments() -> argparse.Namespace:
    parser = argparse.ArgumentParser(description=__doc__, formatter_class=argparse.RawDescriptionHelpFormatter)
    parser.add_argument("--program", metavar="FILE", type=Path, default=PROGRAM, help="the built scribmon")
    parser.add_argument("--seed", metavar="N", type=int, default=1, help="of the sessions (default: 1)")
    parser.add_argument("--keep", metavar="FOLDER", type=Path, help="copies the files of all processes there")
    options = parser.parse_args()
    if not options.program.is_file():
        parser.error(f"{options.program} is not built: make build")
    return options


def main() -> int:
    options = arguments()
    for number in SIGNALS:
        signal.signal(number, interrupted)
    signal.alarm(LIMIT_SECONDS)
    begin = time.monotonic()
    with tempfile.TemporaryDirectory(prefix="scribmon-cluster-") as folder:
        try:
            run_parts(options.program.resolve(), Path(folder), options.seed)
        except (CheckFault, EngineFault, NodeFault, ProcessFault, ValueError, subprocess.SubprocessError) as fault:
            print(f"cluster.py: {fault}")
            return 1
        finally:
            if options.keep:
                shutil.copytree(folder, options.keep, dirs_exist_ok=True)
    print(f"all is well after {time.monotonic() - begin:.0f} s")
    return 0


if __name__ == "__main__":
    if missing := missing_packages():
        # Debian installs its packages for its own Python.
        if os.path.exists(DEBIAN_PYTHON) and not os.path.samefile(sys.executable, DEBIAN_PYTHON):
            os.execv(DEBIAN_PYTHON, [DEBIAN_PYTHON, *sys.argv])
        print(f"not installed for {sys.executable}: {' '.join(missing)}")
        sys.exit(MISSING_STATUS)
    found = main()
    # Threads of producers may still wait for an engine that is gone, and end with the process.
    sys.stdout.flush()
    os._exit(found)
