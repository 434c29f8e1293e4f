"""What the pilot's bridges share, beside the package bozintar: the formats of gateways and of
applications, and the network's names for them."""
