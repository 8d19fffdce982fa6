"""Clients of an echo server, all at once: each sends bytes of its own, closes its side, and reads the same back up to the end of the stream.
python3 echo_clients.py ADDRESS PORT CLIENTS BYTES"""

import random
import socket
import sys
import threading


def client(server, number, count, failed):
    """Sends and reads at the same time."""
    text, got = random.Random(number).randbytes(count), bytearray()
    try:
        with socket.create_connection(server, timeout=60) as sock:

            def send():
                sock.sendall(text)
                sock.shutdown(socket.SHUT_WR)

            sending = threading.Thread(target=send)
            sending.start()
            while piece := sock.recv(65536):
                got += piece
            sending.join()
    except OSError as fault:
        failed.append(f"client {number}: {fault}, {len(got)} of {count} bytes came")
    if got != text:
        failed.append(f"client {number}: other bytes came back")


def main():
    address, port, clients, count = sys.argv[1], *map(int, sys.argv[2:])
    failed = []
    threads = [threading.Thread(target=client, args=((address, port), number, count, failed)) for number in range(clients)]
    for thread in threads:
        thread.start()
    for thread in threads:
        thread.join()
    if failed:
        sys.exit("\n".join(failed))


main()
