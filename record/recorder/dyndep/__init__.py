"""Dynamic dependencies (`dyndep`): what Ninja learns of a build from files that it loads while it looks or builds.

A recording is made after the build, so what those files said is known, and a *resolved* manifest stands in it: each
build statement that names a dyndep file has the implicit outputs and inputs that the file says (and `restat`), and does
not name the file any more. `reading` reads the files, `resolving` puts what they say into a manifest, `looking` says
which files Ninja loaded, `orders` which of the paths they say Ninja took for sources, `build` does all of it for one
build, and `kept` keeps the user's own manifest and the files' contents in the recording.
"""
