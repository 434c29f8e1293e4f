"""What the merge gate costs: the words of tools/gate-costs."""
WORDS = ("watch", "edits", "functions", "lanes")
