"""The options that all commands on the streams of a cluster have."""

import argparse
from typing import Optional


def stream_parser(description: Optional[str]) -> argparse.ArgumentParser:
    """A parser with the address of the engine, the name of the logs and their number."""
    parser = argparse.ArgumentParser(description=description, formatter_class=argparse.RawDescriptionHelpFormatter)
    parser.add_argument("--engine", metavar="ADDRESS", required=True, help="rabbit:HOST:PORT,.. or kafka:HOST:PORT,..")
    parser.add_argument("--name", default="scribmon", help="the name of the logs (default: scribmon)")
    parser.add_argument("--partitions", metavar="P", type=int, required=True, help="how many logs there are")
    return parser
