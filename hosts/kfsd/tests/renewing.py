"""The docket is begun anew while kfsd runs, and nobody is refused for want of a row."""
import threading
import time

from leasing import LEASED
from running import Daemon, lease, numbered, user

USERS = [user(1000 + at, 7 + at, (2 + at * 10, 11 + at * 10)) for at in range(10)]
ROWS, CALLS = 4096, 4000


def rows_are_begun_anew(made):
    """Ten users make 40,000 calls where 4,096 rows may be: each is answered, numbered ones once, and no connection ends."""
    with Daemon(*made, users=USERS, rows=ROWS).start() as daemon:
        wrong, looked = [], []

        def make(connection):
            client, sent = connection.client, 0
            for at in range(CALLS):
                call = lease(client, 1 << 40, 1)
                connection.send(at, numbered(at, call) if client % 2 else call)
                sent += 1
                while sent == 32 or (at == CALLS - 1 and sent):
                    reply = connection.reply()
                    sent -= 1
                    if not reply.answer or reply.answer[4] != LEASED:
                        wrong.append(reply)

        def look(connection):
            while any(it.is_alive() for it in making):
                began = time.monotonic()
                assert connection.ask(1, b"\x40\0\0\0\1").answer
                looked.append(time.monotonic() - began)

        # made here, since a process has one user at a time
        making = [threading.Thread(target=make, args=(daemon.connect(it["client"]),)) for it in USERS]
        looking = daemon.connect(7)
        for it in making:
            it.start()
        look(looking)
        for it in making:
            it.join()
        assert not wrong, (len(wrong), wrong[0])
        starts = daemon.status()["kfs_serve"]["starts"]
        # numbered calls take two rows
        assert CALLS * 15 // ROWS <= starts <= CALLS * 30 // ROWS, starts
        assert daemon.said().count("the docket is begun anew") == starts - 1 and "WARN" not in daemon.said()
        print(f"    {starts} processes for {CALLS * 15} rows; a look-up took {max(looked) * 1000:.0f} ms at most")
        assert daemon.stop()[0] == 0


def a_docket_that_is_full_is_begun_anew(made):
    """A kfsd that finds a full docket begins it anew behind the first refusal, by itself."""
    with Daemon(*made, rows=1000).start() as daemon:
        seven = daemon.connect(7)
        for at in range(700):
            assert seven.ask(1, lease(7, 1000 + at)).answer
        daemon.process.kill()
        daemon.process.wait()
        daemon.rows = 700
        daemon.start()
        seven = daemon.connect(7)
        assert seven.ask(1, lease(7, 5000)).refusal == ("full", 0)
        daemon.wait_for(lambda: daemon.status()["kfs_serve"]["starts"] == 2)
        assert seven.ask(2, lease(7, 5000)).answer[4] == LEASED


TESTS = [rows_are_begun_anew, a_docket_that_is_full_is_begun_anew]
