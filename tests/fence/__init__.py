"""Trials of the fence: which file of a store may be served."""
