#!/usr/bin/env python3
"""Lets a program that serves one connection on its standard input and output be reached over TCP:

    tests/lib/relay.py COMMAND..

Prints the port that it listens on, on 127.0.0.1, and takes one connection. That is the command's input and output;
the command's exit status is its own. After the command's end it takes, and drops, what the client still sends: were
the connection closed with that unread, the client might lose the last reply (RFC 9112, section 9.6).
"""

import contextlib
import socket
import subprocess
import sys


def main(command):
    with socket.create_server(("127.0.0.1", 0)) as listener:
        print(listener.getsockname()[1], flush=True)
        connection, _ = listener.accept()
    with connection:
        status = subprocess.run(command, stdin=connection, stdout=connection).returncode
        # The client may have closed it already.
        with contextlib.suppress(OSError):
            connection.shutdown(socket.SHUT_WR)
            while connection.recv(65_536):
                pass
    return status


if __name__ == "__main__":
    sys.exit(main(sys.argv[1:]))
