"""The stories of the examples."""
