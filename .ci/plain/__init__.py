"""What the program prints, said a second time: slowly, plainly, and from the rules in docs/ alone.

Each module names the page whose rules it follows. Nothing here is fast or clever, and nothing is
taken from the program, so that where the two differ one of them misreads the rules. `.ci/rows`
compares them.
"""
