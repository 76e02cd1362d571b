"""Whose each command is in the files that a generator of manifests reads, and the edits there that mend a race."""
