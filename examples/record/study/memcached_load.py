#!/usr/bin/env python3
"""Four clients of memcached, each of which stores and reads some keys that all share: memcached_load.py PORT TIMES.
The seconds from the first request to the last answer go to the output."""
import socket
import sys
import threading
import time

CLIENTS, KEYS = 4, 13


def connection(port, seconds=600):
    """A connection with a server that may yet have to begin."""
    until = time.monotonic() + seconds
    while True:
        try:
            return socket.create_connection(("127.0.0.1", port))
        except OSError:
            if time.monotonic() > until:
                raise
            time.sleep(0.1)


def work(it, times, number, faults):
    with it:
        lines = it.makefile("rwb")
        for turn in range(times):
            key, value = b"k%d" % ((turn * 7 + number) % KEYS), b"v" * (turn % 40 + 1)
            lines.write(b"set %s 0 0 %d\r\n%s\r\n" % (key, len(value), value))
            lines.flush()
            if not lines.readline().startswith(b"STORED"):
                faults.append("a value isn't stored")
            for command in [b"get %s\r\n" % key, *([b"stats\r\n"] if turn % 9 == 0 else [])]:
                lines.write(command)
                lines.flush()
                while not lines.readline().startswith(b"END"):
                    pass


def main(port, times):
    faults, its = [], [connection(port) for _ in range(CLIENTS)]
    threads = [threading.Thread(target=work, args=(it, times, number, faults)) for number, it in enumerate(its)]
    begun = time.monotonic()
    for it in threads:
        it.start()
    for it in threads:
        it.join()
    print(f"{time.monotonic() - begun:.3f}")
    return len(faults) > 0


if __name__ == "__main__":
    sys.exit(main(int(sys.argv[1]), int(sys.argv[2])))
