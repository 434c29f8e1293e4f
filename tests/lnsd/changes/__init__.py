"""Changes of devices while their store isn't served: they are imported, amended and retired, and
their store grows."""
