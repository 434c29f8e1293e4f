"""The trials of all Python and of the server, which pytest runs (CONTRIBUTING.md)."""
