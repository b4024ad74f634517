"""What the tools know of the crates, and of what a check says of a crate."""
import os
import re

ROOT = os.path.dirname(os.path.dirname(os.path.abspath(__file__)))

# An error that only follows from another one.
CONSEQUENCE = re.compile(r"was not admitted|depends on|that depend on")

# An error that says of a proof that it does not fit the code: it asks for a name that is gone.
MISFIT = re.compile(r"has no field|that can be named from here|is not in scope")


def listed():
    """The crates of crates.txt."""
    with open(os.path.join(ROOT, "crates.txt")) as file:
        return [re.split(r"[ :]", line)[0] for line in file if ":" in line]
