"""What is driven as a Firefox is, and plays nothing: it speaks Marionette, and its page says that it has no WebGPU. WGSIM_FAKE has how it
is: `none` so; `deaf`, which listens and says nothing; `other`, which speaks another protocol; `ends`, which ends when its page is asked; or
`refuses`, which refuses each command."""

import json
import os
import pathlib
import socket
import sys
import time

HOW = os.environ.get("WGSIM_FAKE", "none")


def message(connection, told):
    """Sends a message, in pieces of which the first ends in its length."""
    data = json.dumps(told).encode()
    data = b"%d:%s" % (len(data), data)
    for piece in (data[:1], data[1:5], data[5:]):
        connection.sendall(piece)
        time.sleep(0.01)


def asked(connection):
    """The commands that come, until the connection ends."""
    rest = b""
    while True:
        length, colon, data = rest.partition(b":")
        if colon and len(data) >= int(length):
            yield json.loads(data[: int(length)])
            rest = data[int(length) :]
            continue
        piece = connection.recv(1 << 16)
        if not piece:
            return
        rest += piece


def main():
    profile = pathlib.Path(sys.argv[sys.argv.index("--profile") + 1])
    preferences = (profile / "user.js").read_text(encoding="utf-8")
    assert 'user_pref("dom.webgpu.enabled", true);' in preferences and 'user_pref("marionette.port", 0);' in preferences
    with socket.create_server(("127.0.0.1", 0)) as server:
        (profile / "MarionetteActivePort").write_text(str(server.getsockname()[1]), encoding="utf-8")
        connection, _ = server.accept()
        if HOW == "deaf":
            time.sleep(600)
        message(connection, {"applicationType": "gecko", "marionetteProtocol": 2 if HOW == "other" else 3})
        for _, number, command, words in asked(connection):
            if HOW == "refuses":
                message(connection, [1, number, {"error": "unknown error", "message": "it is a fake"}, None])
            elif command == "WebDriver:ExecuteAsyncScript":
                if HOW == "ends":
                    return
                message(connection, [1, number, None, {"value": {"value": '{"none": "it has no WebGPU"}'}}])
            else:
                message(connection, [1, number, None, {"value": None}])


if __name__ == "__main__":
    main()
