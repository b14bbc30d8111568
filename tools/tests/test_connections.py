"""Connections to `bucketd serve` break after each byte of a request, and after so many bytes of an answer.

  a request cut and closed    is answered what `bucketd script` answers its first bytes, and changes nothing
  a request cut and reset     changes nothing, and the next request is answered
  an answer read in part      begins with the bytes of the whole answer; what the request did stands, and the next is answered
  a great answer              the same of 8 MiB, to clients that reset the connection, or stop reading until the server gives up; the next doesn't wait for that

Of a program without a proof every 7th byte is taken, or with less time every 49th.
"""
import os
import socket
import time

import pytest

from host import Answer, Server, all_of, event, is_fast, is_quick, make_host, request, resets, script

TARGET = "/plans/x"
GREAT = 8 << 20


@pytest.fixture
def stride(program, every):
    return 1 if is_quick(program) else 7 if every else 49


@pytest.fixture
def server(program, folder):
    timeout = 2 if is_fast(program) else 6
    with Server(program, make_host(program, os.path.join(folder, "host"), ["green"]), "--timeout", str(timeout)) as it:
        it.timeout = timeout
        assert it.ask("green", "PUT", "/plans").status == 200
        yield it


def scripted(program, cuts):
    """What a new host with a tenant and its bucket answers to each of these bytes. None of the answers has a document."""
    setting = ['{"at":0,"op":"tenant-add","tenant":"green","quota":1000000}\n', '{"at":0,"op":"key-add","tenant":"green","name":"k1","secret":"greensecret"}\n']
    told = script(program, [*setting, event(request("green", "PUT", "/plans")), *map(event, cuts)])
    return [it + b"\r\n\r\n" for it in told.split(b"\r\n\r\n\n")[1:-1]]


def absent(server):
    return server.ask("green", "GET", TARGET).refusal() == 13


@pytest.mark.cost(20)
def test_request_cut_and_closed(expect, program, server, stride):
    data = request("green", "PUT", TARGET, b"abcde")
    places = range(1, len(data), stride)
    wanted, wrong = dict(zip(places, scripted(program, [data[:at] for at in places]))), []
    for at in places:
        answer = server.exchange(data[:at])
        if answer != wanted[at] or not absent(server):
            wrong.append(f"after {at} bytes: {answer}, not {wanted[at]}")
    kinds = sorted({it.split(b"x-refusal: ")[1].split(b"\r\n")[0].decode() for it in wanted.values()})
    expect(f"a put cut after each of {len(places)} bytes and closed ({', '.join(kinds)})", not wrong, wrong[:3])
    closed = server.exchange(b"")
    expect("a connection closed without a byte", closed in (b"", scripted(program, [b""])[0]) and absent(server), closed)


@pytest.mark.cost(20)
def test_request_cut_and_reset(expect, server, stride):
    data, wrong = request("green", "PUT", TARGET, b"abcde"), []
    places = range(0, len(data), stride)
    for at in places:
        server.reset(data[:at])
        if not absent(server):
            wrong.append(at)
    expect(f"a put cut after each of {len(places)} bytes and reset", not wrong and server.is_up(), wrong)


def heard(server, data, most):
    """The first bytes of an answer, after which the connection is reset."""
    it, got = server.socket(), b""
    it.sendall(data)
    while len(got) < most and (piece := it.recv(most - len(got))):
        got += piece
    resets(it)
    return got


@pytest.mark.cost(20)
@pytest.mark.parametrize("method", ["PUT", "GET", "HEAD", "DELETE"])
def test_answer_read_in_part(expect, server, stride, method):
    """A request over and over, its answer read up to each byte: it is the whole answer's beginning, and the request is done."""
    body, wrong = b"abcde", []
    put = request("green", "PUT", TARGET, body)
    data = put if method == "PUT" else request("green", method, TARGET)
    server.exchange(put)
    whole = server.exchange(data)
    places = range(0, len(whole) + 1, stride)
    for at in places:
        if method == "DELETE":
            server.exchange(put)
        got = heard(server, data, at)
        now = server.ask("green", "GET", TARGET)
        is_done = now.refusal() == 13 if method == "DELETE" else (now.status, now.body) == (200, body)
        if got != whole[:at] or not is_done:
            wrong.append(f"{at} bytes: {got}, not {whole[:at]}; then {now}")
    is_told = Answer(whole, method).status in (200, 204) and Answer(whole, method).is_whole
    expect(f"the first bytes of an answer of {len(whole)}, {len(places)} times", is_told and not wrong and server.is_up(), wrong[:3])


@pytest.mark.cost(20)
def test_put_whose_answer_is_read_in_part(expect, server, stride):
    """Another body each time: what a client that broke off had put is there."""
    whole = server.exchange(request("green", "PUT", TARGET, b"abcde"))
    place, wrong = whole.index(b"x-amz-checksum-sha256: ") + 23, []
    for at in range(0, len(whole) + 1, stride):
        body = f"body {at}".encode()
        got = heard(server, request("green", "PUT", TARGET, body), at)
        now = server.ask("green", "GET", TARGET)
        wanted = whole[:place] + now.fields["x-amz-checksum-sha256"].encode() + whole[place + 44 :]
        if got != wanted[:at] or now.body != body:
            wrong.append(f"{at} bytes: {got}, not {wanted[:at]}")
    expect("bodies that were put", not wrong, wrong[:3])


@pytest.mark.cost(60)
@pytest.mark.proved
def test_great_answer(expect, server):
    body = os.urandom(GREAT)
    server.ask("green", "PUT", "/plans/great", body)
    data = request("green", "GET", "/plans/great")
    whole = server.exchange(data)
    expect("a great answer", whole.endswith(body) and whole.startswith(b"HTTP/1.1 200 OK\r\n"), len(whole))
    wrong = [at for at in (0, 1, 100, 1000, 65_536, 300_000, 1_000_000, 2_000_000, 3_000_000, GREAT)
             if heard(server, data, at) != whole[:at] or server.exchange(data) != whole]
    expect("of which a client reads a part and resets", not wrong and server.is_up(), wrong)
    for at in (0, 100_000):
        stalled(expect, server, data, whole, at)


def files(server):
    """How many files the server has open."""
    return len(os.listdir(f"/proc/{server.process.pid}/fd"))


def stalled(expect, server, data, whole, most):
    """A client that stops reading: the next is answered at once, and after the timeout, which begins with the answer, and no sooner,
    the server gives it up."""
    begun, got, before = time.monotonic(), b"", files(server)
    with server.socket(room=4096) as it:
        it.sendall(data)
        it.recv(1, socket.MSG_PEEK)
        answered = time.monotonic()
        while len(got) < most and (piece := it.recv(most - len(got))):
            got += piece
        status, soon = server.ask("green", "HEAD", "/plans").status, time.monotonic() - answered
        while files(server) > before and time.monotonic() - begun < 30 * server.timeout:
            time.sleep(0.01)
        took = time.monotonic() - begun
        got += all_of(it)
    is_given_up = whole.startswith(got) and most <= len(got) < len(whole)
    # On a busy machine the first byte may come late.
    is_in_time = 0.9 * server.timeout <= took < 30 * server.timeout and soon < 0.7 * server.timeout
    expect(f"a client that stops reading after {most} bytes", status == 200 and is_given_up and is_in_time,
           f"{status} {soon:.1f} s after the first byte, given up after {took:.1f} s, {len(got)} bytes of {len(whole)}")
