"""The name of the row that all stand-ins have for a parent, and what leaves them out of an expression."""

# The SHA-1 of "segdag: what has the parents of a commit behind its eighth", which is no object of git.
MARK = "01538f758bad6a5b460f77422661ebe0f34fa8ad"
STAND_INS = f"union({MARK},children({MARK}))"
