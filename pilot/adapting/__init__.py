"""Adaptive data rate (ADR): what the program adr decides by."""
