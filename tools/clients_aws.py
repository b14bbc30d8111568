"""An aws-cli whose modules are loaded once, as a busy machine takes 10 seconds to start one: clients_aws.py SOCKET serves commands,
each in a process of its own. ASK, with the socket's name, is a program that has one carried out with its own words, folder,
environment and files, and ends with its status."""
import json
import os
import signal
import socket
import sys

ASK = """#!/usr/bin/python3 -SE
import json, os, socket, sys
with socket.socket(socket.AF_UNIX) as link:
    link.connect(%r)
    socket.send_fds(link, [json.dumps([sys.argv[1:], os.getcwd(), dict(os.environ)]).encode() + b"\\n"], [0, 1, 2])
    sys.exit(int(link.recv(9) or 1))
"""


def carry_out(link, main):
    text, files, _, _ = socket.recv_fds(link, 1 << 20, 3)
    while not text.endswith(b"\n"):
        text += link.recv(1 << 20)
    words, folder, env = json.loads(text)
    signal.signal(signal.SIGCHLD, signal.SIG_DFL)
    child = os.fork()
    if child == 0:
        for number, file in enumerate(files):
            os.dup2(file, number)
        os.chdir(folder)
        os.environ.update(env)  # (what awscli has set itself stays)
        sys.argv = ["aws", *words]
        sys.exit(main())
    link.send(b"%d" % (os.waitstatus_to_exitcode(os.waitpid(child, 0)[1]) & 255))
    os._exit(0)


def serve(name):
    import awscli.clidriver
    awscli.clidriver.create_clidriver()
    signal.signal(signal.SIGCHLD, signal.SIG_IGN)
    with socket.socket(socket.AF_UNIX) as listener:
        listener.bind(name)
        listener.listen(16)
        while True:
            link = listener.accept()[0]
            if os.fork() == 0:
                carry_out(link, awscli.clidriver.main)
            link.close()


if __name__ == "__main__":
    serve(sys.argv[1])
