"""The option of the scripts that try the built program and have no other."""

import argparse
import os

PROGRAM = os.path.join(os.path.dirname(os.path.abspath(__file__)), "..", "crates", "scribmon", "out", "scribmon")


def built_program(description):
    """The path of the program that --program names, or of the built one. Ends the process where it is not there."""
    parser = argparse.ArgumentParser(description=description, formatter_class=argparse.RawDescriptionHelpFormatter)
    parser.add_argument("--program", metavar="FILE", default=PROGRAM, help="the built scribmon")
    options = parser.parse_args()
    if not os.path.exists(options.program):
        parser.error("%s is not built: make build" % options.program)
    return options.program
