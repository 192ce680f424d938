"""What scripts of this folder need: the time that builds take, and what is done where a program is not there."""

import os

# seconds that a build has: `rt lib` may prove a library from nothing, and the scripts wait for one another
BUILDING = 7200


def left_out(name, why="it is not there"):
    """A case that is left out, and says why: where the variable CI is true that is a failure."""
    return "%s: left out, %s" % (name, why), "it must be there" if os.environ.get("CI") == "true" else None


def is_proved():
    """Whether what is tested is what users get: where it was built without proofs (`make test`) its size and cost are others."""
    return "UNPROVED" not in os.environ
