"""tools/balance over TLS: it asks members whose certificate is of the CA that is named and of the host that was asked, and no others."""
import os
import socket
import subprocess

from tests.harness import TOP, topology_of
from tests.model import shown
from tests.model.rules import Node
from tests.model.store import Store
from tests.service.certificates import Authority, NoOpenssl
from tests.service.client_py import Client
from tests.service.cluster import Group, Member
from tests.service.crash_points import wait_for

TOOL, BOOK, TOKEN = f"{TOP}/tools/balance", "p0", "operatesoperatesoperates"
NODES = {number: Node(number % 18, number % 12, 12) for number in range(36)}
LATE = 0, 18  # the nodes of a rack that comes last
COMMANDS = [*(f"fail {node}" for node in LATE), *(f"place {stripe}" for stripe in range(12)), *(f"join {node}" for node in LATE)]


def balance(*words):
    """The status, the output and the one line of error of the tool, which no setting of this machine changes."""
    env = {name: value for name, value in os.environ.items() if not name.startswith(("LRCMAND_", "SSL_"))}
    ran = subprocess.run([TOOL, *words], capture_output=True, text=True, env=env, timeout=300)
    return ran.returncode, ran.stdout, ran.stderr


def script_of_model(folder):
    """The script of the tables that the model has after the commands."""
    store = Store(NODES)
    for command in COMMANDS:
        store.call(1, command)
    files = [f"{folder}/{view}.csv" for view in ("nodes", "stripes", "leases")]
    for file, view in zip(files, ("nodes", "stripes", "leases")):
        with open(file, "w", encoding="utf-8") as out:
            out.write(shown.shown(view, store, len(COMMANDS)))
    return balance(*files)[1]


def expect_refused(count, name, told, start, part):
    status, out, err = told
    is_told = status == 2 and not out and err.startswith(f"tools/balance: {start}") and part in err and err.count("\n") == 1
    count.check(f"{name}: {told}", is_told)


def compare(count, url, folder, ca, other_ca):
    """The book has the script of the model; who is not of the CA, or not of the token, is refused."""
    client = Client([url], token=TOKEN, ca=ca)
    client.create(BOOK, topology_of(NODES))
    replies = [client.call(BOOK, command)["reply"] for command in COMMANDS]
    opens, script = client.nodes(BOOK, now=True).opens, script_of_model(folder)
    count.check(f"there is something to move: {script} after {replies}", "lease" in script)
    tokens = "--token-file", f"{folder}/tokens"
    right = 0, f"# at {len(COMMANDS)} opens {opens}\n{script}", ""
    for servers in (url, f"http://127.0.0.1:1,{url}"):
        told = balance("--server", servers, "--ca", ca, *tokens, BOOK)
        count.check(f"over TLS, {servers}: {told}, and not {right}", told == right)
    moves = balance("--server", url, *tokens, "--ca", ca, "--moves", BOOK)
    count.check(f"the moves: {moves}", moves[0] == 0 and moves[1].count("\n") == script.count("lease") + 1)
    start = f"book {BOOK}: {url} answers nodes: "
    expect_refused(count, "another CA", balance("--server", url, "--ca", other_ca, *tokens, BOOK), start, "CERTIFICATE_VERIFY_FAILED")
    expect_refused(count, "the CAs of the system", balance("--server", url, *tokens, BOOK), start, "CERTIFICATE_VERIFY_FAILED")
    expect_refused(count, "no token", balance("--server", url, "--ca", ca, BOOK), f"{start}401", "unauthorized")
    plain = url.replace("https:", "http:")
    expect_refused(count, "no TLS", balance("--server", plain, *tokens, BOOK), f"book {BOOK}: {plain} answers nodes: 400", "HTTPS")
    no_ca = balance("--server", url, "--ca", f"{folder}/tokens", *tokens, BOOK)
    expect_refused(count, "a file that is no CA", no_ca, f"--ca: {folder}/tokens: ", "certificate")


def takes_connections(port):
    with socket.socket() as one:
        return one.connect_ex(("127.0.0.1", port)) == 0


def test_balance_over_tls(count, program, room, left_out):
    folder = f"{room}/balance-tls"
    try:
        authority, other = Authority(f"{folder}/ca"), Authority(f"{folder}/other")
    except NoOpenssl as why:
        left_out("tools/balance over TLS", why)
        return
    with open(os.open(f"{folder}/tokens", os.O_WRONLY | os.O_CREAT, 0o600), "w", encoding="utf-8") as file:
        file.write(f"operate {TOKEN}\n")
    for hosts in ("IP:127.0.0.1", "IP:127.0.0.2,DNS:elsewhere.example"):
        certificate, key = authority.sign("member", hosts)
        member = Member(Group(program, f"{folder}/group", 0), 1, ["--cert", certificate, "--key", key, "--token-file", f"{folder}/tokens"])
        url = f"https://127.0.0.1:{member.client}"
        try:
            member.start()
            wait_for("it takes connections", lambda port=member.client: takes_connections(port), member)
            if "127.0.0.1" in hosts:
                compare(count, url, folder, authority.ca, other.ca)
                continue
            told = balance("--server", url, "--ca", authority.ca, "--token-file", f"{folder}/tokens", BOOK)
            expect_refused(count, "a certificate of other hosts", told, f"book {BOOK}: {url} answers nodes: ", "not valid for '127.0.0.1'")
        finally:
            member.kill()
