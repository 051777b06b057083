"""Clients of a tcp_echo that may fail: `tcp_echo_probe.py PORT [SECONDS [CONNECTIONS]]`. 8 connections (or so many), one behind the other,
send a block each and compare what comes back: it has to be a first part of the block. With SECONDS above 0, 16 connections send blocks
for so long. Prints how many blocks came back whole; the status is 1 where a byte was wrong."""
import socket
import sys
import threading
import time

PORT = int(sys.argv[1])
SECONDS = float(sys.argv[2]) if len(sys.argv) > 2 else 0
CONNECTIONS = int(sys.argv[3]) if len(sys.argv) > 3 else 8
whole = 0
wrong = 0
counting = threading.Lock()


def block_of(client, number, size=3000):
    """The numbered block of a client; no two are the same."""
    head = b"%d %d " % (client, number)
    return head + bytes((client * 7 + number * 13 + at) % 251 for at in range(size - len(head)))


def exchange(peer, block):
    """Sends a block and gives what came back of it."""
    came = b""
    try:
        peer.sendall(block)
        while len(came) < len(block):
            piece = peer.recv(len(block) - len(came))
            if not piece:
                break
            came += piece
    except OSError:
        pass
    return came


def count(came, block):
    global whole, wrong
    with counting:
        whole += came == block
        wrong += not block.startswith(came)


def once(client):
    try:
        with socket.create_connection(("127.0.0.1", PORT), timeout=10) as peer:
            peer.settimeout(10)
            block = block_of(client, 0)
            count(exchange(peer, block), block)
    except OSError:
        pass


def for_long(client, until):
    """Every tenth block is sent on a connection of its own."""
    number = 0
    while time.monotonic() < until:
        with socket.create_connection(("127.0.0.1", PORT), timeout=10) as peer:
            peer.settimeout(10)
            for _ in range(10):
                block = block_of(client, number)
                count(exchange(peer, block), block)
                number += 1


if SECONDS:
    until = time.monotonic() + SECONDS
    threads = [threading.Thread(target=for_long, args=(client, until)) for client in range(16)]
    for thread in threads:
        thread.start()
    for thread in threads:
        thread.join()
else:
    for client in range(CONNECTIONS):
        once(client)
print(whole)
sys.exit(wrong > 0)
