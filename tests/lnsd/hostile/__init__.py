"""What a server must refuse, and what it must bear: each answer is as docs/FORMATS.md and
docs/OPERATING.md have it."""
