"""A browser over the real one that lies: it starts Chromium with the words that it gets, hands on what is said on the two pipes, and puts
tests/hunt/lies.js before each page. WGSIM_LIE has the lie; `crash` ends the browser where a script resolves a query set."""

import fcntl
import json
import os
import pathlib
import subprocess
import sys
import threading

from wgsim.recorder import browser

LIE = os.environ["WGSIM_LIE"]
SOURCE = f"globalThis.wgsimLie = {json.dumps(LIE)};\n" + (pathlib.Path(__file__).parent / "lies.js").read_text(encoding="utf-8")
OWN = 10**9


def messages(file):
    """The messages that come on a pipe, each without the byte that ends it."""
    rest = b""
    while True:
        piece = os.read(file, 1 << 16)
        if not piece:
            return
        *whole, rest = (rest + piece).split(b"\0")
        yield from whole


def write(file, data):
    data += b"\0"
    while data:
        data = data[os.write(file, data) :]


def answers(source):
    """Hands on what the browser says, but for what was asked for here."""
    for message in messages(source):
        if json.loads(message).get("id") != OWN:
            write(browser.WRITES, message)
    os._exit(0)


def main():
    (to_read, commands), (said, to_write) = os.pipe(), os.pipe()
    high = [fcntl.fcntl(file, fcntl.F_DUPFD, 10) for file in (to_read, to_write)]

    def placed():
        # The browser reads and writes on the files that it knows.
        os.dup2(high[0], browser.READS)
        os.dup2(high[1], browser.WRITES)

    words = [browser.found(None), *sys.argv[1:]]
    run = subprocess.Popen(words, preexec_fn=placed, pass_fds=(browser.READS, browser.WRITES))
    for file in (to_read, to_write, *high):
        os.close(file)
    threading.Thread(target=answers, args=(said,), daemon=True).start()
    for message in messages(browser.READS):
        if LIE == "crash" and b"resolveQuerySet" in message:
            run.kill()
            os._exit(0)
        told = json.loads(message)
        if told.get("method") == "Page.navigate":
            asked = {"id": OWN, "method": "Page.addScriptToEvaluateOnNewDocument", "params": {"source": SOURCE}}
            write(commands, json.dumps({**asked, "sessionId": told["sessionId"]}).encode())
        write(commands, message)
    run.kill()


if __name__ == "__main__":
    main()
