"""Sessions for trials: what each service reports of them, right ones and spoiled ones, from a seed."""

import random
from dataclasses import dataclass
from pathlib import Path
from typing import Callable, Dict, List, Tuple

EXAMPLES = Path(__file__).resolve().parent.parent
GATEWAY = "gateway"
# Sender, receiver and message of each message of a run.
Run = List[Tuple[str, str, str]]


@dataclass(frozen=True)
class Report:
    """A line that a service has to report."""
    session: str
    service: str
    verb: str
    arguments: str = ""


@dataclass(frozen=True)
class Session:
    """A session: its protocol, and what its services report in an order in which it may have happened."""
    name: str
    protocol: str
    reports: Tuple[Report, ...]

    def opening(self) -> Report:
        return Report(self.name, GATEWAY, "open", self.protocol)


def module_text(name: str) -> str:
    """The text of a module of the examples."""
    return next(EXAMPLES.glob(f"*/{name}.scr")).read_text(encoding="utf-8")


def order_run(pick: random.Random) -> Run:
    end = pick.choice(["ship(Date)", "refund(Int)"])
    return [("Client", "Shop", "order(Item)"), ("Shop", "Client", "invoice(Int)"), ("Client", "Bank", "pay(Int)"),
            ("Bank", "Shop", "paid(Int)"), ("Shop", "Client", end)]


def two_buyer_run(pick: random.Random) -> Run:
    begin = [("First", "Seller", "title(Str)"), ("Seller", "First", "price(Int)"), ("Seller", "Second", "price(Int)"),
             ("First", "Second", "share(Int)")]
    if pick.random() < 0.5:
        return begin + [("Second", "Seller", "quit()"), ("Second", "First", "decided()")]
    return begin + [("Second", "Seller", "accept(Address)"), ("Seller", "Second", "date(Date)"),
                    ("Second", "First", "decided()")]


def retries_run(pick: random.Random) -> Run:
    busy = [("Client", "Server", "request(Text)"), ("Server", "Client", "busy()")]
    return busy * pick.randint(0, 4) + [("Client", "Server", "request(Text)"), ("Server", "Client", "reply(Text)")]


RUNS: Dict[str, Callable[[random.Random], Run]] = {
    "shop.Order": order_run, "two_buyer.TwoBuyer": two_buyer_run, "retries.Retries": retries_run}
MODULES = ["shop", "two_buyer", "retries"]


def reports_of(session: str, run: Run) -> List[Report]:
    """The reports of a run: all roles join, and each message is sent and then received."""
    roles = sorted({role for sender, receiver, _ in run for role in (sender, receiver)})
    reports = [Report(session, role, "join", role) for role in roles]
    for sender, receiver, message in run:
        reports.append(Report(session, sender, "send", f"{sender} {receiver} {message}"))
        reports.append(Report(session, receiver, "recv", f"{sender} {receiver} {message}"))
    return reports


def spoiled(pick: random.Random, reports: List[Report]) -> List[Report]:
    """The reports with one fault. Each reception keeps its send, so none waits for ever to be released."""
    sends = [at for at, report in enumerate(reports) if report.verb == "send"]
    at = pick.choice(sends)
    kind = pick.choice(["message", "again", "undeclared", "joins twice", "bad line"])
    service, verb, sender_receiver = reports[at].service, "send", reports[at].arguments.rpartition(" ")[0]
    added = {
        "message": Report(reports[at].session, service, verb, f"{sender_receiver} other(Int)"),
        "again": reports[at],
        "undeclared": Report(reports[at].session, service, "join", "Nobody"),
        "joins twice": Report(reports[at].session, service, "join", service),
        "bad line": Report(reports[at].session, service, verb, f"{sender_receiver} no message"),
    }[kind]
    kept = reports[at + 1:] if kind == "message" else reports[at:]
    return reports[:at] + [added] + kept


def make_sessions(seed: int, count: int, wrong_share: float) -> List[Session]:
    """Sessions of the protocols in turn, a share of them spoiled."""
    pick = random.Random(seed)
    sessions = []
    for number in range(count):
        protocol = list(RUNS)[number % len(RUNS)]
        name = f"{protocol.partition('.')[0]}-{pick.getrandbits(24):06x}-{number}"
        reports = reports_of(name, RUNS[protocol](pick))
        if pick.random() < wrong_share:
            reports = spoiled(pick, reports)
        sessions.append(Session(name, protocol, tuple(reports)))
    return sessions


def by_service(pick: random.Random, sessions: List[Session]) -> Dict[str, List[Report]]:
    """What each service reports of some sessions, mixed over the sessions, in order within each."""
    lists: Dict[str, List[List[Report]]] = {}
    for session in sessions:
        own: Dict[str, List[Report]] = {GATEWAY: [session.opening()]}
        for report in session.reports:
            own.setdefault(report.service, []).append(report)
        for service, reports in own.items():
            lists.setdefault(service, []).append(reports)
    return {service: mixed(pick, reports) for service, reports in lists.items()}


def mixed(pick: random.Random, lists: List[List[Report]]) -> List[Report]:
    """One list of all, each list's own order kept. Some tens of lists are under way at once."""
    waiting, under_way, merged = [list(reversed(each)) for each in reversed(lists)], [], []
    while waiting or under_way:
        while waiting and len(under_way) < 20:
            under_way.append(waiting.pop())
        chosen = pick.choice(under_way)
        merged.append(chosen.pop())
        if not chosen:
            under_way.remove(chosen)
    return merged
