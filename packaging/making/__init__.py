"""What bin/package makes the Debian package of: units, man pages, completion, the tree of files."""
