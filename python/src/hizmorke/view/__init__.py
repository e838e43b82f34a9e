"""A page to look at a network: its landmarks, its clusters, a packet on its way, and what a live service does.

What ``hizmorke view`` runs. The server is the standard library's, the page is plain JavaScript modules; nothing is had
from another machine.
"""
