"""A network in which links hang, lose one direction, are late, are reset, and break off in the middle of an answer.

Who speaks to whom goes through a proxy of the one that is spoken to. Members tell their number in a header of each request."""
import random
import re
import socket
import struct
import threading
import time

from tests.service.cluster import free_port

CLIENT = 0  # the number of all clients; members have theirs
SENDER = re.compile(rb"X-Server-From: ([0-9a-f]+)\r\n")
RESET = struct.pack("ii", 1, 0)  # SO_LINGER: a close sends RST
STEP = 0.01


class Link:
    """A connection through a proxy. `source` is who made it: None as long as it has not told who it is."""

    def __init__(self, network, source, target, near, far):
        self.network, self.source, self.target, self.near, self.far = network, source, target, near, far
        self.is_closed = False

    def begin(self):
        for pump in (self.pump_there, self.pump_back):
            threading.Thread(target=pump, daemon=True).start()

    def pump_there(self):
        for text in self.texts(self.near):
            found = SENDER.search(text) if self.source is None else None
            if found:
                self.source = int(found[1], 16)
            if not self.send(self.source, self.target, self.far, text):
                break
        self.close()

    def pump_back(self):
        for text in self.texts(self.far):
            if self.source == CLIENT and self.network.breaks():
                self.send(self.target, self.source, self.near, text[:self.network.chance(len(text))])
                self.close(is_reset=True)
            elif not self.send(self.target, self.source, self.near, text):
                break
        self.close()

    def texts(self, side):
        try:
            while text := side.recv(1 << 16):
                yield text
        except OSError:
            pass  # (it was reset)

    def send(self, source, target, side, text):
        """Sends what came, once this direction is open. Returns whether the link is still there."""
        time.sleep(self.network.delay(source, target))
        while self.network.is_blocked(source, target) and not self.is_closed:
            time.sleep(STEP)
        try:
            side.sendall(text)
        except OSError:
            return False
        return not self.is_closed

    def close(self, is_reset=False):
        self.is_closed = True
        for side in (self.near, self.far):
            try:
                if is_reset:
                    side.setsockopt(socket.SOL_SOCKET, socket.SO_LINGER, RESET)
                side.shutdown(socket.SHUT_RDWR)
            except OSError:
                pass  # (it is closed)
            side.close()
        self.network.forget(self)


class Proxy:
    """A port from which links go on to that of a member."""

    def __init__(self, network, source, target, port):
        self.network, self.source, self.target, self.far_port, self.port = network, source, target, port, free_port()
        self.listener = socket.create_server(("127.0.0.1", self.port), backlog=64)
        threading.Thread(target=self.accept, daemon=True).start()

    def accept(self):
        while True:
            try:
                near, _ = self.listener.accept()
            except OSError:
                return  # (it is over)
            try:
                far = socket.create_connection(("127.0.0.1", self.far_port), 2)
                far.settimeout(None)
            except OSError:
                near.close()  # (the member is away)
                continue
            self.network.add(Link(self.network, self.source, self.target, near, far))


class Network:
    """The proxies of a group that has not begun yet, and what their links do now."""

    def __init__(self, group, seed):
        self.lock, self.random = threading.Lock(), random.Random(seed)
        self.links, self.blocked, self.delays, self.break_rate = set(), set(), {}, 0.0
        self.proxies = []
        for member in group.members.values():
            peer, front = Proxy(self, None, member.number, member.peer), Proxy(self, CLIENT, member.number, member.client)
            member.front, member.listen = front.port, member.peer
            member.peer = peer.port
            self.proxies += [peer, front]
        group.renew_first()

    def __enter__(self):
        return self

    def __exit__(self, *_):
        for proxy in self.proxies:
            proxy.listener.shutdown(socket.SHUT_RDWR)  # (else its thread waits for ever, and the port stays open)
            proxy.listener.close()
        self.reset(lambda link: True)

    def add(self, link):
        with self.lock:
            self.links.add(link)
        link.begin()

    def forget(self, link):
        with self.lock:
            self.links.discard(link)

    def chance(self, below):
        with self.lock:
            return self.random.randrange(below)

    def breaks(self):
        with self.lock:
            return self.random.random() < self.break_rate

    def is_blocked(self, source, target):
        return (source, target) in self.blocked

    def delay(self, source, target):
        return self.delays.get((source, target), 0)

    def block(self, *ways):
        """Nothing arrives that way, until it is open again."""
        self.blocked = self.blocked | set(ways)

    def open(self, *ways):
        self.blocked = self.blocked - set(ways)

    def reset(self, is_meant):
        """Resets the links that are meant, and returns how many they are."""
        with self.lock:
            links = [it for it in self.links if is_meant(it)]
        for link in links:
            link.close(is_reset=True)
        return len(links)

    def calm(self):
        """All links work."""
        self.blocked, self.delays, self.break_rate = set(), {}, 0.0


def ways_between(number, others):
    """Both directions between a member and each of the others."""
    return [way for other in others if other != number for way in ((number, other), (other, number))]
