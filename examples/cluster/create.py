#!/usr/bin/env python3
"""Makes the streams of a generation of logs: P logs, P streams of replies, and one of edits.

    create.py --engine ADDRESS --name NAME --partitions P

Streams that are there are left as they are.
"""

import sys

from engine import EngineFault, open_engine
from options import stream_parser
from records import Streams


def main() -> int:
    parser = stream_parser(__doc__)
    options = parser.parse_args()
    streams = Streams(options.name, options.partitions).all()
    try:
        engine = open_engine(options.engine)
        engine.create(streams)
        engine.close()
    except EngineFault as fault:
        print(f"create.py: {fault}", file=sys.stderr)
        return 1
    print(f"{len(streams)} streams")
    return 0


if __name__ == "__main__":
    sys.exit(main())
