"""The contents that commands met and left, by digests: the file `contents` beside `observed` (docs/FORMATS.md).

`watching` takes the observer's looks and the moments of the commands from the events, `hashing` makes the digests in a
thread of its own, `certain` says which version of a file a command met or left, and `writing` writes the file. What is
not certain is marked, and has no digest.
"""
