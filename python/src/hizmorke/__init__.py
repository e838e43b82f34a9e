"""Networks with small routing tables: networks in and out, devices, live services, tables, figures and plots.

What is named here is loaded when it is first used, so ``import hizmorke`` takes no time, and needs nothing but Python.

Examples
--------
>>> import hizmorke
>>> network = hizmorke.Network(3, [(0, 1, 5), (1, 2, 7)])
>>> network.node_count
3
"""

from __future__ import annotations

from importlib import import_module
from typing import TYPE_CHECKING, Any

__version__ = "0.5.0"

if TYPE_CHECKING:
    from hizmorke import errors, plot
    from hizmorke.device import Device
    from hizmorke.figures import figures
    from hizmorke.forms import read
    from hizmorke.network import Network
    from hizmorke.service import Service
    from hizmorke.tables import Packet, Table

# Each name with its module; a module has itself.
_PLACES = {
    "Network": "network",
    "read": "forms",
    "Device": "device",
    "Service": "service",
    "Table": "tables",
    "Packet": "tables",
    "figures": "figures",
    "plot": "",
    "errors": "",
}

__all__ = [
    "Device",
    "Network",
    "Packet",
    "Service",
    "Table",
    "__version__",
    "errors",
    "figures",
    "plot",
    "read",
]


def __getattr__(name: str) -> Any:
    if name not in _PLACES:
        raise AttributeError(f"module {__name__!r} has no attribute {name!r}")
    place = _PLACES[name]
    module = import_module(f"{__name__}.{place or name}")
    found = getattr(module, name) if place else module
    # The module `figures` puts itself under its name, where the function of that name belongs.
    globals()[name] = found
    return found


def __dir__() -> list[str]:
    return sorted({*globals(), *_PLACES})
