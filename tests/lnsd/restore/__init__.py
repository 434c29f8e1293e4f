"""Copies of stores that are restored."""
