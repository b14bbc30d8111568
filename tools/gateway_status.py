"""What a gateway tells of itself and of its host, how both end, and that nobody reaches a host on sockets: tools/test-gateway runs these
functions of a World (gateway_attacks), and prints a line for each case."""
import json
import os
import re
import shutil
import signal
import socket
import stat
import subprocess
import tempfile
import time
from http.client import HTTPConnection

from gateway_attacks import until
from host import PATIENCE, Program
from s3_requests import TOP, Client, Gateway, make_host

WITHOUT = "built without metrics"  # what a gateway says that lacks Prometheus' library


def asked(port, path):
    """The status and the text of a page."""
    link = HTTPConnection("127.0.0.1", port, timeout=PATIENCE)
    link.request("GET", path)
    answer = link.getresponse()
    return answer.status, answer.read().decode()


def number(text, name):
    """The value of a metric in a page of them; None where it isn't there."""
    found = re.search(rf"^{re.escape(name)} (\S+)$", text, re.M)
    return float(found[1]) if found else None


def is_open(address, port):
    try:
        socket.create_connection((address, port), timeout=5).close()
        return True
    except OSError:
        return False


def status(w):
    """A host that answers, and then stalls; what is told on 127.0.0.1 is told there alone."""
    port, child = w.gateway.status(), w.gateway.child()
    w.expect("/healthz of a host that answers", until(lambda: asked(port, "/healthz") == (200, "ok\n")), asked(port, "/healthz"))
    others = {"127.0.0.2", socket.gethostbyname(socket.gethostname())} - {"127.0.0.1"}
    w.expect("the status is told at no other address", not [it for it in others if is_open(it, port)], others)
    os.kill(child, signal.SIGSTOP)
    try:
        begun = time.monotonic()
        told = until(lambda: (found := asked(port, "/healthz"))[0] == 503 and found, 20)
        w.expect("/healthz of a host that stalls", told == (503, "the host doesn't answer: no answer within 2s\n") and time.monotonic() - begun < 20, told)
        code, page = asked(port, "/metrics")
        w.expect("metrics beside a host that stalls", code == 501 or number(page, "bucketd_up") == 0, (code, page[:300]))
    finally:
        os.kill(child, signal.SIGCONT)
    w.expect("/healthz when it goes on", until(lambda: asked(port, "/healthz")[0] == 200), asked(port, "/healthz"))
    w.expect("no other page is there", [asked(port, it)[0] for it in ("/", "/debug/pprof/", "/debug/vars")] == [404] * 3)
    with w.beside("--status-port", "0", host=["--host", "127.0.0.1:1"]) as other:
        code, text = asked(other.status(), "/healthz")
        w.expect("/healthz of a host that isn't there", code == 503 and "connection refused" in text and text.count("\n") == 1, (code, text))
    if WITHOUT in w.gateway.text():
        print("Debian's golang-github-prometheus-client-golang-dev isn't here: metrics aren't tried")
    else:
        metrics(w, port)


def metrics(w, port):
    """What is counted of four requests, and that neither a secret nor a name of a client's is told."""
    name = 'bucketd_gateway_request_seconds_count{operation="%s",status="%s"}'
    names = (name % ("PutObject", "2xx"), name % ("GetObject", "2xx"), name % ("GetObject", "4xx"), name % ("none", "4xx"), "bucketd_gateway_received_bytes_total",
             'bucketd_gateway_errors_total{code="NoSuchKey"}', 'bucketd_gateway_signatures_refused_total{cause="SignatureDoesNotMatch"}', "bucketd_gateway_sent_bytes_total")
    before = asked(port, "/metrics")[1]
    w.green.ask("PUT", "/raw/counted", b"x" * 1000)
    w.green.ask("GET", "/raw/counted")
    w.green.ask("GET", "/raw/nothing")
    Client(w.green.port, secret="nonsense").ask("GET", "/raw/a")

    def changes():
        page = asked(port, "/metrics")[1]
        return page, [(number(page, it) or 0) - (number(before, it) or 0) for it in names]

    is_well = until(lambda: (it := changes()[1])[:7] == [1, 1, 1, 1, 1000, 1, 1] and 1000 <= it[7] < 4000, 20)
    page, found = changes()
    w.expect("metrics count requests, bytes, errors and signatures", is_well, found)
    told = [it for it in ("greensecret", "green$k1", "counted", "/raw", "nonsense") if it in page]
    w.expect("no secret, no key and no name of a client's is told", not told and number(page, "bucketd_up") == 1, told)
    series = [line for line in page.splitlines() if line and line[0] != "#"]
    w.expect("the series are few", len(series) < 3000, len(series))
    if not shutil.which("promtool"):
        print("no promtool is here: it doesn't look at metrics")
        return
    done = subprocess.run(["promtool", "check", "metrics"], input=page, capture_output=True, text=True)
    own = [line for line in (done.stdout + done.stderr).splitlines() if not line.startswith(("go_", "process_"))]
    w.expect("metrics, by promtool", not own, own)


def stored(w):
    """What a host's operators are told stands in metrics, by their port and its secret, and is asked for seldom."""
    with tempfile.TemporaryDirectory() as folder:
        make_host(w.program, folder, {"green": 1 << 30, "blue": 2000})
        secret = os.path.join(folder, "operators")
        with open(os.open(secret, os.O_CREAT | os.O_WRONLY, 0o600), "w") as out:
            out.write("operatorsecret\n")
        words = ["--port", "0", "--operator-port", "0", "--operator-secret-file", secret, "--log", "--clock-leap", "366"]
        with Program([w.program, "serve", "--file", os.path.join(folder, "host"), *words]) as server:
            host, port = server.announced(r"listening on 127\.0\.0\.1:(\d+)"), server.announced(r"operators on 127\.0\.0\.1:(\d+)")
            gateway = Gateway(w.build, None, folder, "--host", f"127.0.0.1:{host}", "--status-port", "0", "--operator-port", str(port), "--operator-secret-file", secret)
            try:
                if WITHOUT not in gateway.text():
                    told(w, gateway, server)
            finally:
                gateway.end()


def told(w, gateway, server):
    """Metrics of a new host with two tenants, after a put."""
    green, begun = Client(gateway.port), time.monotonic()
    green.ask("PUT", "/raw")
    green.ask("PUT", "/raw/a", b"x" * 5000)
    until(lambda: (number(asked(gateway.status(), "/metrics")[1], 'bucketd_tenant_bytes{tenant="green"}') or 0) >= 5000)
    page = [asked(gateway.status(), "/metrics")[1] for _ in range(20)][-1]
    names = ('bucketd_tenant_quota_bytes{tenant="blue"}', 'bucketd_tenant_keys{tenant="green"}', "bucketd_tenants", "bucketd_operators_failures_total")
    found = [number(page, it) for it in names]
    w.expect("tenants, quotas and blocks stand in metrics", found == [2000, 1, 2, 0] and number(page, "bucketd_stored_bytes") >= 5000, found)
    puts = number(page, 'bucketd_server_requests_total{method="PUT",status="2xx"}')
    w.expect("what the host itself has counted, too", puts is not None and puts >= 2, puts)
    w.expect("the operators' secret doesn't", not any("operatorsecret" in it for it in (page, gateway.text())))
    lines = sum(" operator " in line for line in server.lines())
    w.expect("however often it is asked for, operators are asked once in 15 seconds", 2 <= lines <= 2 * (2 + (time.monotonic() - begun) / 15), lines)


def alerts(expect):
    """The alerts and the board, by promtool: they are sound, each alert fires when it is to, and no query of the board is none."""
    for words in (["check", "rules", os.path.join(TOP, "deploy/gateway-alerts.yml")], ["test", "rules", os.path.join(TOP, "tools/tests/gateway_alerts.yml")]):
        done = subprocess.run(["promtool", *words], capture_output=True, text=True)
        expect(f"the alerts, by promtool {words[0]}", done.returncode == 0, done.stdout + done.stderr)
    with open(os.path.join(TOP, "deploy/gateway-board.json")) as board:
        queries = [it["expr"] for panel in json.load(board)["panels"] for it in panel["targets"]]
    with tempfile.NamedTemporaryFile("w", suffix=".json") as out:  # (JSON is YAML)
        json.dump({"groups": [{"name": "board", "rules": [{"record": f"q{i}", "expr": it.replace("$__rate_interval", "5m")} for i, it in enumerate(queries)]}]}, out)
        out.flush()
        done = subprocess.run(["promtool", "check", "rules", out.name], capture_output=True, text=True)
    expect("the board's queries, by promtool", done.returncode == 0 and len(queries) > 20, done.stdout + done.stderr)


def words_of(process):
    with open(f"/proc/{process}/cmdline") as text:
        return text.read().split("\0")


def inodes_of(process):
    """The numbers of a process's sockets."""
    at, found = f"/proc/{process}/fd", set()
    for it in os.listdir(at):
        try:
            found |= set(re.findall(r"socket:\[(\d+)\]", os.readlink(os.path.join(at, it))))
        except OSError:
            pass  # (it was closed meanwhile)
    return found


def listening():
    """The numbers of the sockets of TCP that listen."""
    found = set()
    for table in ("/proc/net/tcp", "/proc/net/tcp6"):
        with open(table) as lines:
            found |= {line.split()[9] for line in lines if line.split()[3] == "0A"}
    return found


def reach(place, user):
    """Whether a process of a user can connect to a socket."""
    if not (child := os.fork()):
        try:
            os.setuid(user)
            socket.socket(socket.AF_UNIX).connect(place)
            os._exit(0)
        except PermissionError:
            os._exit(1)
        finally:
            os._exit(2)
    return os.waitstatus_to_exitcode(os.waitpid(child, 0)[1]) == 0


def sockets(w):
    """Nobody but the gateway's own user reaches a bucketd on sockets: they lie in a folder of mode 0700, and no port is open."""
    child, place = w.gateway.child(), w.gateway.inner()
    words = words_of(child)
    paths = [os.path.dirname(place), place, words[words.index("--operator-socket") + 1]]
    modes = [stat.S_IMODE(os.stat(it).st_mode) for it in paths]
    w.expect("bucketd's sockets lie in a folder of the gateway's user", words[words.index("--socket") + 1] == place and modes == [0o700, 0o600, 0o600], (paths, modes))
    w.expect("bucketd has no port", not inodes_of(child) & listening(), words)
    if os.geteuid() == 0:
        w.expect("another user doesn't reach it", reach(place, 0) and not reach(place, 65534), place)
    os.kill(child, signal.SIGKILL)
    is_back = until(lambda: w.gateway.child() not in (None, child) and w.green.ask("PUT", "/back")[0] in (200, 409))
    w.expect("a bucketd that was killed comes back at its socket", is_back and w.gateway.inner() == place, w.gateway.text()[-300:])


def stop(w, size):
    """A gateway that is told to end while a put is on its way answers it, ends its host and leaves no socket."""
    gateway = Gateway(w.build, w.program, w.folder)
    client, child, place, data = Client(gateway.port), gateway.child(), gateway.inner(), os.urandom(size)
    client.ask("PUT", "/raw")
    head, _ = client.head("PUT", "/raw/last", body=data)
    with socket.create_connection(("127.0.0.1", gateway.port)) as link:
        link.settimeout(PATIENCE)
        text = "".join(f"{it}: {value}\r\n" for it, value in head.items())
        link.sendall(f"PUT /raw/last HTTP/1.1\r\n{text}content-length: {len(data)}\r\n\r\n".encode() + data[:-1])
        time.sleep(0.2)
        gateway.process.send_signal(signal.SIGTERM)
        time.sleep(0.2)
        link.sendall(data[-1:])
        answer = link.recv(12)
    done = gateway.end()
    w.expect("a put that is on its way when the gateway ends is answered", answer == b"HTTP/1.1 200" and done == 0, (answer, done, gateway.text()[-300:]))
    w.expect("its host has ended, and no socket is left", not os.path.exists(f"/proc/{child}") and (isinstance(place, int) or not os.path.exists(os.path.dirname(place))), place)
    again = Gateway(w.build, w.program, w.folder)
    got = Client(again.port).ask("GET", "/raw/last")
    w.expect("the put is there", got[0] == 200 and got[2] == data, got[:2])
    again.end()
