"""Eight clients at once at a server of keys on the loopback, memcached or redis: keys.py PROTOCOL PORT. Each sets keys of its own, reads them back, and counts up counters
that all of them share. What the server has at the end is printed: it is the same whatever came first."""
import hashlib
import socket
import sys
import threading

CLIENTS, ROUNDS, KEYS, COUNTERS = 8, 40, 50, 16


class Server:
    """One connection, over which lines go and come."""

    def __init__(self, protocol, port):
        self.is_redis = protocol == "redis"
        self.socket = socket.create_connection(("127.0.0.1", port), timeout=60)
        self.socket.setsockopt(socket.IPPROTO_TCP, socket.TCP_NODELAY, 1)
        self.lines = self.socket.makefile("rb")

    def set_form(self, key, value):
        return f"SET {key} {value}\r\n" if self.is_redis else f"set {key} 0 0 {len(value)}\r\n{value}\r\n"

    def get_form(self, key):
        return f"{'GET' if self.is_redis else 'get'} {key}\r\n"

    def count_form(self, key):
        return f"INCR {key}\r\n" if self.is_redis else f"incr {key} 1\r\n"

    def send(self, forms):
        self.socket.sendall("".join(forms).encode())

    def line(self):
        return self.lines.readline().rstrip().decode()

    def value(self):
        """What one `get` is answered."""
        first = self.line()
        if first in ("$-1", "END"):
            return "none"
        value = self.line()
        if not self.is_redis and self.line() != "END":
            raise RuntimeError("no end of a value")
        return value


def value_of(client, number, key):
    return hashlib.md5(f"{client} {number} {key}".encode()).hexdigest() * (1 + key % 7)


def use(protocol, port, client, wrong):
    at = Server(protocol, port)
    done = "+OK" if at.is_redis else "STORED"
    for number in range(ROUNDS):
        at.send(at.set_form(f"key-{client}-{k}", value_of(client, number, k)) for k in range(KEYS))
        wrong.extend(line for line in (at.line() for _ in range(KEYS)) if line != done)
        at.send(at.count_form(f"count-{(client + k) % COUNTERS}") for k in range(COUNTERS))
        wrong.extend(line for line in (at.line() for _ in range(COUNTERS)) if not line.lstrip(":").isdigit())
        at.send(at.get_form(f"key-{client}-{k}") for k in range(KEYS))
        wrong.extend(k for k in range(KEYS) if at.value() != value_of(client, number, k))


def main(protocol, port):
    wrong, first = [], Server(protocol, port)
    first.send(first.set_form(f"count-{k}", "0") for k in range(COUNTERS))
    for _ in range(COUNTERS):
        first.line()
    clients = [threading.Thread(target=use, args=(protocol, port, k, wrong)) for k in range(CLIENTS)]
    for client in clients:
        client.start()
    for client in clients:
        client.join()
    first.send(first.get_form(f"count-{k}") for k in range(COUNTERS))
    print(*(first.value() for _ in range(COUNTERS)), "wrong", len(wrong), wrong[:5])
    for client in range(CLIENTS):
        first.send(first.get_form(f"key-{client}-{k}") for k in range(KEYS))
        print(hashlib.sha256(" ".join(first.value() for _ in range(KEYS)).encode()).hexdigest())


main(sys.argv[1], int(sys.argv[2]))
