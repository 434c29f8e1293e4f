"""The power fails at each moment of a short life of the server."""
