"""The parts of tools/whole-system: a network of many stores, its loads, and what is done to it."""
