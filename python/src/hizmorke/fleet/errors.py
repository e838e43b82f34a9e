"""What goes wrong in a fleet, beside the exceptions of `hizmorke.errors`."""

from __future__ import annotations

from hizmorke.errors import Fault, NotUnderstood, Refused


class WiresNotUnderstood(NotUnderstood):
    """A line of a file of wires isn't ``NODE HOST:PORT [HOST]`` of a node that has none yet."""

    default_text = "it is no `NODE HOST:PORT [HOST]` of a node that has none yet"


class NoWire(Refused):
    """The file of wires doesn't say where a node's router is."""

    default_text = "the node has no wire"


class NoAnswer(Refused):
    """A probe had no answer in time."""

    default_text = "no answer"


class CountersNotThere(Fault):
    """Routers' counters can't be read."""

    default_text = "the counters cannot be read"


class TablesNotTaken(Fault):
    """Routers haven't taken the tables in time."""

    default_text = "not all routers have taken their tables"


class EtcdUnreachable(Fault):
    """No member of etcd answers."""

    default_text = "no member of etcd answers"


class EtcdRefused(Fault):
    """etcd answered that it doesn't do what it was asked for."""

    default_text = "etcd refuses"


class NumberTaken(Refused):
    """The log has another edit under this name and number."""

    default_text = "another edit has this name and number"


class ReplicasDiffer(Fault):
    """An edit came to something else here than on the replica that told it first."""

    default_text = "the replicas differ"

