#!/usr/bin/env python3
"""Edits the protocols of all partitions: appends an edit, and puts a mark with its number into each log.

    editor.py --engine ADDRESS --name NAME --partitions P put FILE
    editor.py --engine ADDRESS --name NAME --partitions P withdraw MODULE
    editor.py --engine ADDRESS --name NAME --partitions P profile PROFILE

Prints the edit's number. Behind its mark a partition's replies have the reply, tagged `edit.` and the number.
"""

import sys
import time
import uuid
from pathlib import Path
from typing import Iterable

from engine import Engine, EngineFault, open_engine
from options import stream_parser
from records import BadRecord, Edit, Mark, Streams, parse_edit

IDLE_SECONDS, FIND_SECONDS = 1, 60


def append_edit(engine: Engine, streams: Streams, verb: str, argument: str) -> int:
    """Appends an edit, and returns its number: the first offset that has it.

    A confirmation has no offset, and the last offset of a copy that lags may be smaller; so the edit is looked for.
    """
    edit = Edit(uuid.uuid4().hex, verb, argument)
    if parse_edit(edit.text()) != edit:
        raise BadRecord(edit.text())
    engine.append(streams.edits(), [edit.text().encode("utf-8")])
    limit = time.monotonic() + FIND_SECONDS
    for message in engine.read(streams.edits(), 0, IDLE_SECONDS):
        if message is not None and message.body.decode("utf-8") == edit.text():
            return message.offset
        if time.monotonic() > limit:
            break
    raise EngineFault("the edit is confirmed, and does not come")


def put_marks(engine: Engine, streams: Streams, edit: int, partitions: Iterable[int]) -> None:
    """Puts a mark into the log of each of these partitions."""
    for partition in partitions:
        engine.append(streams.log(partition), [Mark(edit).text().encode("ascii")])


def main() -> int:
    parser = stream_parser(__doc__)
    parser.add_argument("verb", choices=["put", "withdraw", "profile"])
    parser.add_argument("argument", metavar="ARGUMENT", help="a file with a module, a module's name, or a profile")
    options = parser.parse_args()
    engine, streams = open_engine(options.engine), Streams(options.name, options.partitions)
    try:
        argument = Path(options.argument).read_text(encoding="utf-8") if options.verb == "put" else options.argument
        number = append_edit(engine, streams, options.verb, argument)
        put_marks(engine, streams, number, range(options.partitions))
    except (EngineFault, BadRecord, OSError) as fault:
        print(f"editor.py: {fault}", file=sys.stderr)
        return 1
    engine.close()
    print(number)
    return 0


if __name__ == "__main__":
    sys.exit(main())
