#!/usr/bin/env python3
"""How long a streamed transaction's commit takes once its message was sent, with workers and without.

    delay.py [--rows N,..] [--times N] [--rest SECONDS] [--program P]

`pgapply follow` reads from a connection of this machine. Of each transaction its rows are sent first;
after a rest, in which a worker keeps up, its commit, and the time is taken until the status update for
it comes back. A line for each number of rows prints the median and the longest of so many, by a worker
and without one. A timing is no test: nothing fails for it.

Needs: python3 (3.11) and the built program (`rt run` or `rt ci` leave it in crates/pgapply/out).
"""
import argparse, os, socket, statistics, struct, subprocess, sys, tempfile, time

from figures import HERE, MAIL, mail, stream_commit, stream_start, sub_of

STATUS_UPDATE = 39  # bytes of a frame that holds one


def frame(message):
    return b"d" + struct.pack(">I", 29 + len(message)) + b"w" + bytes(24) + message


def delays(connection, rows, times, rest):
    """Seconds from each commit's message to its status update."""
    for number in range(times):
        xid = 700 + number
        rows_of = range(1 + number * rows, 1 + (number + 1) * rows)
        block = [stream_start(xid, 1), MAIL.relation(sub_of(xid)), *(MAIL.insert(mail(row), sub_of(xid)) for row in rows_of), b"E"]
        connection.sendall(b"".join(map(frame, block)))
        time.sleep(rest)
        begun = time.perf_counter()
        connection.sendall(frame(stream_commit(xid, 0x100 * (number + 1))))
        if len(connection.recv(STATUS_UPDATE, socket.MSG_WAITALL)) != STATUS_UPDATE:
            sys.exit("delay: the program ended")
        yield time.perf_counter() - begun


def measure(program, workers, rows, times, rest):
    with socket.create_server(("127.0.0.1", 0)) as listener, tempfile.NamedTemporaryFile("w", suffix=".toml") as catalog:
        catalog.write(MAIL.catalog())
        catalog.flush()
        address = f"127.0.0.1:{listener.getsockname()[1]}"
        words = [program, "follow", "--config", catalog.name, "--connect", address, "--workers", str(workers)]
        child = subprocess.Popen(words, stdout=subprocess.DEVNULL)
        connection, _ = listener.accept()
        connection.setsockopt(socket.IPPROTO_TCP, socket.TCP_NODELAY, 1)
        with connection:
            found = list(delays(connection, rows, times, rest))
            connection.sendall(b"c" + struct.pack(">I", 4))
            if child.wait():
                sys.exit(f"delay: the program ended with {child.returncode}")
        return found


def main():
    words = argparse.ArgumentParser(description=__doc__, formatter_class=argparse.RawDescriptionHelpFormatter)
    words.add_argument("--rows", default="10,1000,100000", help="rows of a transaction, divided by commas")
    words.add_argument("--times", type=int, default=10, help="transactions of each kind")
    words.add_argument("--rest", type=float, default=0.5, help="seconds between the rows and the commit")
    words.add_argument("--program", default=f"{HERE}/../crates/pgapply/out/pgapply")
    said = words.parse_args()
    print("| rows | workers | median, milliseconds | longest |\n|---|---|---|---|")
    for rows in map(int, said.rows.split(",")):
        for workers in (1, 0):
            found = measure(os.path.abspath(said.program), workers, rows, said.times, said.rest)
            print(f"| {rows} | {workers} | {1000 * statistics.median(found):.2f} | {1000 * max(found):.2f} |", flush=True)


if __name__ == "__main__":
    main()
