"""A second reading of the rules in docs/, written without a look at the proved code: what the program answers to a script, in a given order
of turns.

It is plain: rules are generators of what is asked, and what came before is looked at as it was said. What is asked for again and again is
noted beside the history, so that a call costs what it touches, and scripts of tens of thousands of calls can be played. `answers` is the
way in. `tests/random` and `tests/lanes` compare the program with it, and `wgsim verify`, `wgsim run --callers` and `wgsim outcomes` answer
by it. """
