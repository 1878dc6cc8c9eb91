"""Tests of the package, against models of their own. ``python3 -m unittest discover -t . tests`` runs them."""

#: For how many seconds a test waits at most for what another thread or process does: on a machine with much else to do too.
LIMIT = 120.0
