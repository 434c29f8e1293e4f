"""The server is killed again and again, each time in the middle of a load."""
