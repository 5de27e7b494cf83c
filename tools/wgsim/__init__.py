"""The tool `wgsim` around the proved program: it plays scripts, and explains, draws and compares what the program says.

program/ asks the program, and builds it; reading/ reads scripts, reports, traces and rules; matching/ sets what the program says beside
them; causes/ finds why a rule is unmet; pages/ writes HTML; recorder/ records pages; random_scripts/ makes scripts
at random, and hunting/ plays them in a browser; generated/ writes what is generated of the documents;
and commands/ has a file for each command. """

import pathlib

# The top of the repository.
TOP = pathlib.Path(__file__).resolve().parents[2]
