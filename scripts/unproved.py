"""Runs the program's words without any proof, for a first look: unproved.py TOP WORD ..

The kit builds the program from its sources as they stand, with checks, in one to two minutes, and runs it once. What it
prints is what the sources do; nothing says that they meet their contracts. The last lines on standard error are the kit's
own: that the run ended, and that nothing was proved.
"""
import os
import sys

top, words = os.path.realpath(sys.argv[1]), sys.argv[2:]
command = ["rt", "try"]
for word in dict.fromkeys(words):
    # The run has a folder of its own: a file that a word names by a relative path is laid there.
    if os.path.isfile(word) and not os.path.isabs(word):
        command += ["--data", f"{word}={os.path.realpath(word)}"]
os.chdir(os.path.join(top, "crates", "gh_cli"))
print("genhs: this run is not proved", file=sys.stderr, flush=True)
os.execvp("rt", command + ["--"] + words)
