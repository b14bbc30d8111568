"""Counts the instructions of the functions of a program by valgrind's callgrind: of a run, or of a server's answers."""
import os
import re
import socket
import subprocess
import sys
import time

from events import request
from server import copied, make_host

KEY = ("green$k1", "greensecret")


def counted(folder, words, drive=None, text=None):
    """The instructions of each function of a run, and of all."""
    out = os.path.join(folder, "callgrind")
    command = ["valgrind", "--tool=callgrind", f"--callgrind-out-file={out}"] + words
    if text is not None:
        done = subprocess.run(command, input=text, stdout=subprocess.DEVNULL, stderr=subprocess.PIPE)
        status = done.returncode
    else:
        child = subprocess.Popen(command, stdout=subprocess.DEVNULL, stderr=subprocess.PIPE)
        drive()
        child.communicate()
        status = child.returncode
    if status != 0:
        sys.exit(f"{words} ended with {status}")
    told = subprocess.run(["callgrind_annotate", "--threshold=100", out], capture_output=True, text=True).stdout
    functions = {}
    for count, name in re.findall(r"^ *([\d,]+) \(.*?\)  (\S.*?)(?: \[.*)?$", told, re.M):
        name = re.sub(r"::<#[0-9a-f]+>|'\d+$", "", name.split(":", 1)[-1] if name.startswith("???") else name.rsplit(":", 1)[-1])
        if name != "PROGRAM TOTALS":
            functions[name] = functions.get(name, 0) + int(count.replace(",", ""))
    return functions


def send(port, text):
    for _ in range(600):
        try:
            with socket.create_connection(("127.0.0.1", port)) as link:
                link.sendall(text.encode())
                link.shutdown(socket.SHUT_WR)
                while link.recv(1 << 20):
                    pass
            return
        except ConnectionRefusedError:
            time.sleep(0.1)
    sys.exit("the server doesn't listen")


def serving(program, file, texts, *options):
    """The words of a server on a file, with these options, and what asks it these."""
    port = 20000 + os.getpid() % 20000
    words = [program, "serve", "--file", file, "--port", str(port), "--count", str(len(texts)), "--timeout", "600", *options]
    return words, lambda: [send(port, text) for text in texts]


def filled(program, folder, first, *options):
    """A host, made with these options, with a tenant and its bucket, which a server has answered these."""
    file = os.path.join(folder, "host")
    make_host(program, file, ["green"], *options, quota=1 << 50)
    words, drive = serving(program, file, [request("PUT", *KEY, "/plans", "")] + first)
    child = subprocess.Popen(words, stderr=subprocess.DEVNULL)
    drive()
    child.wait()
    return file


def served(program, file, last, *options):
    """The functions of a server with these options that answers these, on a copy of a host."""
    copy = copied(file, os.path.dirname(file), os.path.basename(file) + "-copy")
    return counted(os.path.dirname(file), *serving(program, copy, last, *options))
