"""Sockets that another one has, that go, or that can't be."""
import os
import signal
import socket
import time

from running import HELLO, Daemon, lease

WRONG = 1


def says_hello(daemon):
    """Whether who connects is answered."""
    try:
        seven = daemon.connect(7)
    except OSError:
        return False
    seven.send(1, HELLO)
    return seven.next()[1][:1] == HELLO


def a_socket_in_use_is_left(made):
    """A second kfsd with another folder takes no path of a running one, makes no desk, and leaves what is another's."""
    with Daemon(*made).start() as first:
        for names in (("socket",), ("control",), ("socket", "control")):
            with Daemon(*made) as second:
                second.elsewhere = {name: f"{first.room}/{name}" for name in names}
                second.begin()
                assert second.ended() == WRONG and f"{first.room}/{names[0]}: another program listens there" in second.said()
                assert os.listdir(second.folder) == ["lock"]
            assert says_hello(first) and first.status()["kfs_serve"]["is_open"]
        # one that hangs is there, too, though its line is full
        with Daemon(*made) as second, socket.socket(socket.AF_UNIX) as hanging, socket.socket(socket.AF_UNIX) as waiting:
            hanging.bind(f"{second.room}/socket")
            hanging.listen(0)
            waiting.connect(f"{second.room}/socket")
            second.begin()
            assert second.ended() == WRONG and "another program listens there" in second.said()
        # what has come in its place isn't its own, and stays
        os.remove(f"{first.room}/socket")
        with open(f"{first.room}/socket", "wb"):
            pass
        assert first.stop()[0] == 0
        assert os.path.isfile(f"{first.room}/socket") and not os.path.exists(f"{first.room}/control")


def a_socket_that_goes_is_made_anew(made):
    """Its path is removed, or another one's socket takes it: connections stay, and new ones come again."""
    with Daemon(*made).start() as daemon:
        seven = daemon.connect(7)
        for name in ("socket", "control"):
            os.remove(f"{daemon.room}/{name}")
        began = time.monotonic()
        daemon.process.send_signal(signal.SIGHUP)
        daemon.wait_for(lambda: says_hello(daemon) and os.path.exists(f"{daemon.room}/control"))
        assert time.monotonic() - began < 5
        assert daemon.status()["kfs_serve"]["is_open"] and seven.ask(1, lease(7, 10)).answer
        assert os.stat(f"{daemon.room}/socket").st_mode & 0o777 == 0o666 and os.stat(f"{daemon.room}/control").st_mode & 0o777 == 0o600
        os.remove(f"{daemon.room}/socket")
        other = socket.socket(socket.AF_UNIX)
        other.bind(f"{daemon.room}/socket")
        other.listen()
        daemon.wait_for(lambda: "can't be made anew" in daemon.said())
        time.sleep(2.5)
        assert daemon.said().count("can't be made anew") == 1
        other.close()
        daemon.wait_for(lambda: says_hello(daemon))
        assert daemon.stop()[0] == 0
        assert not os.path.exists(f"{daemon.room}/socket") and not os.path.exists(f"{daemon.room}/control")


def sockets_that_can_not_be(made):
    """What stands in a socket's way is told before the files of a desk are made."""
    with Daemon(*made) as daemon:
        with open(f"{daemon.room}/control", "wb"):
            pass
        daemon.begin()
        assert daemon.ended() == WRONG and "control isn't a socket" in daemon.said()
        assert os.listdir(daemon.folder) == ["lock"]
    for path, why in (("/nowhere/socket", "No such file"), ("/tmp/" + "s" * 150, "too long")):
        with Daemon(*made) as daemon:
            daemon.elsewhere["socket"] = path
            daemon.begin()
            assert daemon.ended() == WRONG and f"{path}: " in daemon.said() and why in daemon.said()
            assert os.listdir(daemon.folder) == ["lock"]


TESTS = [a_socket_in_use_is_left, a_socket_that_goes_is_made_anew, sockets_that_can_not_be]
