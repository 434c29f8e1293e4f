"""Exports of other network servers, and the devices in them."""
