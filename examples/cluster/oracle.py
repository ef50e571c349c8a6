"""What one monitor of all sessions replies: the logs of all partitions as one script, and the replies by their tags.

It shares no code with the adapter but the forms of records: a line's place is computed from the whole log here.
"""

import re
import subprocess
from collections import defaultdict
from dataclasses import dataclass, field
from pathlib import Path
from typing import Dict, Iterable, List, Optional, Set, Tuple

from engine import Message
from records import Line, Mark, parse_edit, parse_record

BAD_LINE = re.compile(r"refused BadLine \d+")
RUN_SECONDS = 120


@dataclass
class PartitionScript:
    """A partition's script lines by the number of edits that were taken, and the edits at which it swept."""
    groups: Dict[int, List[str]] = field(default_factory=lambda: defaultdict(list))
    swept: List[int] = field(default_factory=list)
    marks: int = 0
    doubled: int = 0
    early: int = 0
    lines: Set[Line] = field(default_factory=set)


def partition_script(partition: int, log: List[Message]) -> PartitionScript:
    """The script of one partition."""
    records = [(f"{partition}.{message.offset}.{at}", parse_record(text.decode("ascii")))
               for message in log for at, text in enumerate(message.body.split(b"\n"))]
    script = PartitionScript()
    first: Dict[Tuple[str, str, int], int] = {}
    for place, (_, record) in enumerate(records):
        if isinstance(record, Line):
            script.lines.add(record)
            script.doubled += (record.session, record.producer, record.number) in first
            first.setdefault((record.session, record.producer, record.number), place)
    taken, edits_at = 0, []
    for _, record in records:
        script.marks += isinstance(record, Mark)
        if isinstance(record, Mark) and record.edit >= taken:
            taken = record.edit + 1
            script.swept.append(record.edit)
        edits_at.append(taken)
    placed = []
    for (session, producer, number), place in first.items():
        # A line counts from where the last of its producer's lines up to it came first.
        due = max(first.get((session, producer, each), len(records)) for each in range(1, number + 1))
        script.early += due > place
        if due < len(records):
            placed.append((due, number, place))
    for due, _, place in sorted(placed):
        tag, line = records[place]
        script.groups[edits_at[due]].append(line.script(tag) + "\n")
    return script


def whole_script(scripts: List[PartitionScript], edits: List[Message]) -> str:
    """One script of all partitions: an edit comes behind all lines that came before it in their partitions."""
    swept = {number for script in scripts for number in script.swept}
    pieces: List[str] = []
    for taken in range(len(edits) + 1):
        if taken:
            pieces.append(parse_edit(edits[taken - 1].body.decode("utf-8")).script(taken - 1))
        if taken - 1 in swept:
            pieces.append(f"@sweep.{taken - 1} sweep\n")
        for script in scripts:
            pieces += script.groups[taken]
    return "".join(pieces)


def run_watch(program: Path, script: str, hold: Optional[int]) -> Tuple[List[str], str]:
    """The replies of one `watch`, and what standard error has."""
    words = [str(program), "watch", "--names", "--tags", "--endless"] + (["--hold", str(hold)] if hold else [])
    done = subprocess.run(words, input=script.encode("utf-8"), capture_output=True, check=True, timeout=RUN_SECONDS)
    return done.stdout.decode("ascii").splitlines(), done.stderr.decode("ascii").strip()


def by_tag(replies: Iterable[str]) -> Dict[str, str]:
    """The replies by their tags, without the numbers of bad lines.

    Raises ValueError where two have one tag.
    """
    found: Dict[str, str] = {}
    for reply in replies:
        tag, _, text = reply.partition(" ")
        if tag in found:
            raise ValueError(f"two replies have the tag {tag}")
        found[tag] = BAD_LINE.sub("refused BadLine", text)
    return found


def swept_sums(scripts: List[PartitionScript], replies: Dict[str, str]) -> Dict[str, str]:
    """The sums of the replies to sweeps, of those marks at which all partitions swept, as they did one mark before."""
    sums = {}
    for number in scripts[0].swept:
        before = {script.swept[script.swept.index(number) - 1] if script.swept.index(number) else None
                  for script in scripts if number in script.swept}
        if len(before) == 1 and all(number in script.swept for script in scripts):
            counts = [replies[f"@sweep.{at}.{number}"] for at in range(len(scripts))]
            judged = sum(int(count.split()[1]) for count in counts)
            sums[f"@sweep.{number}"] = f"sweep: {judged} judged"
    return sums


def is_sweep(tag: str) -> bool:
    return tag.startswith("@sweep.")


def differences(found: Dict[str, str], wanted: Dict[str, str]) -> List[str]:
    """What differs between two sets of replies, but for sweeps."""
    tags = sorted(tag for tag in found.keys() | wanted.keys() if not is_sweep(tag))
    return [f"{tag}: {found.get(tag)!r} and not {wanted.get(tag)!r}" for tag in tags
            if found.get(tag) != wanted.get(tag)]
