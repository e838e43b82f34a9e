# %% [markdown]
# # From a graph of networkx to a live service
#
# A graph with the shape of the Internet's networks becomes a device. Landmarks are chosen, so that no node's table is large; packets take ways that are a little longer than the
# shortest ones, and how much longer is drawn. At the end a live service takes an edit, and its routes follow.

# %%
import os

import networkx

import hizmorke

nodes = int(os.environ.get("NOTEBOOK_NODES", "3000"))
graph = networkx.random_internet_as_graph(nodes, seed=7)
print(graph)

# %% [markdown]
# `Network` is what comes in and goes out: numbers of nodes, edges with weights. This graph has no weights, so each edge has the weight 1. A device is one file, made whole or not at all.

# %%
network = hizmorke.Network.from_networkx(graph)
device = hizmorke.Device("internet")
holding = device.load(network)
print(f"{holding.nodes} nodes, {holding.edges} edges, {holding.count} changes")

# %% [markdown]
# ## Landmarks
#
# With landmarks that are drawn, some tables are large. `landmarks` chooses them so that none is larger than four times the square root of the number of nodes.

# %%
words = device.landmarks(seed=7)
print(words[:72], "..")
drawn = hizmorke.figures(device, "draw:7", pairs=200)
chosen = hizmorke.figures(device, words, pairs=200)
for name, figures in (("drawn", drawn), ("chosen", chosen)):
    print(f"{name}: {len(figures.landmarks)} landmarks, largest table {figures.table_bytes.max()} bytes, mean {figures.table_bytes.mean():.0f}")
print(f"a full table: {2 * (network.node_count - 1)} bytes")

# %%
hizmorke.plot.tables(device, words)

# %% [markdown]
# ## How long the ways are
#
# The stretch of a pair is the length of the packet's way over the shortest distance, which SciPy's Dijkstra finds. It is never more than three.

# %%
figures = hizmorke.figures(device, words, pairs=1000)
print("\n".join(line for line in figures.lines() if line.startswith(("stretch", "exact", "pairs", "unreachable"))))

# %%
hizmorke.plot.stretch(device, words)

# %% [markdown]
# ## A live service
#
# `Service` runs the program behind pipes. Each edit is sent under a ticket, so it is made once, even if the service is lost before it answers. `wait` comes back when the tables have all
# edits.

# %%
a, b = 0, network.node_count - 1
with hizmorke.Service("internet", words) as service:
    before = service.route(a, b)
    print("before:", before)
    edited = service.edit([("add", a, b, 1)] if b not in graph[a] else [("cut", a, b)])
    print("change number", edited.count)
    service.wait()
    print("after: ", service.route(a, b))
    print({name: value for name, value in service.metrics().items() if name in ("accepted", "generation", "build_us")})

# %% [markdown]
# The device has the edit when the service has ended.

# %%
device.state()
