"""The blind side of the tests: rule files checked, run and searched from the papers alone.

Nothing here is shared with the case finder; its answers are compared with these.
"""
