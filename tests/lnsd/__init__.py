"""Trials of the server lnsd, on its sockets and its file."""
