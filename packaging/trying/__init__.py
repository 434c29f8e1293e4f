"""What tools/package-trial tries of the Debian package."""
