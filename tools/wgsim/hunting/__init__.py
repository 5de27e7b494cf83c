"""`wgsim hunt`: scripts are made at random, a browser or an engine plays them, and what it answers is compared with the core's answers.

sources.py makes scripts, flat.py makes each one of a single lane that can be played, core.py asks the core;
translation.py and shaders.py say what each call is in a browser, browsers.py and engines.py have it played;
differences.py compares, smaller.py makes what differs small, findings.py and written_pages.py write it down;
hunt.py has all of it one after another.
"""
