"""The generator of random scripts: good ones, faulty ones and ones at the edges of each rule. tests/random and `wgsim hunt` play them.

sorts.py is the way in: it has the sorts of scripts, and makes one of a sort. world.py is what a script that is being made has so far; the
other files have, by topic, what is good and the faults that leave one rule unmet. Everything comes of one source of chance, so that a seed
brings the same script each time.
"""
