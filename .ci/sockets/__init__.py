"""The tests of `sockets.py`, a file a subject, and what they share: `calls`, `server` and `cables`."""
