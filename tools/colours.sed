# Colours for the words that rebug_ask prints, line by line: `sed -E -f`. It adds escapes, and changes nothing else.
# What is wrong: red.
s/^(race|cycle|own|clash|unstable|undeclared|unlisted|failed|refused|not certain)\>/\x1b[1;31m&\x1b[0m/
# What may be: yellow.
s/^(hint|suspects?|also (still to run|running|failed before))\>/\x1b[33m&\x1b[0m/
s/did you mean [^?]*\?/\x1b[33m&\x1b[0m/
# What mends it, and what is well: green.
s/^( +)(mend:)(.*)$/\1\x1b[32m\2\3\x1b[0m/
s/^(certain:|no race\>)/\x1b[1;32m&\x1b[0m/
# The number of a finding: bold. A place in the manifest: cyan.
s/\[[0-9]+\]$/\x1b[1m&\x1b[0m/
s/\(([^ ()]+:[0-9]+)\)/(\x1b[36m\1\x1b[0m)/g
