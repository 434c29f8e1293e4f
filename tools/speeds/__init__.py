"""How fast the server is: the words of tools/speed."""
WORDS = ("server", "run", "chains", "databases", "console", "page")
