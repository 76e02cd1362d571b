"""What each command of a build really read and wrote, as the system showed it.

`calls` has what an observer tells, whichever observer it is. `strace_text` and `own_records` read what each of the two
observers writes. Everything else takes calls alone: `processes` follows folders, descriptors and process trees,
`places` finds real paths, `effects` and `footprints` keep what a command read and wrote, `matching` finds its edge, and
`writing` makes the file.
"""
