"""A network that runs: routers over UDP, tables handed out to them, probes, and replicas of a device over etcd.

``fleet/README.md`` of the repository says what runs where and what of it is proved. Nothing of this package is.

- `wires` reads the file that says where each node's router and host are.
- `payloads` has the bytes behind a packet.
- `probes` sends, pings and traces.
- `handing` puts tables where routers find them, and tells when the last one has them.
- `counters` reads what routers tell.
- `etcd`, `log` and `replica` keep several devices the same.
- `run` shows all of it on one machine, and judges it.
"""
