"""Blocks go to slower tiers where few places of tier 0 are free."""
import itertools
import re
import struct
import threading
import time

from loading import image_in
from looking import has_look_ups
from running import Daemon, lease, lease_by_path, numbered, user

from benchmarks import FILE, NameRow, file_gone, files_made, log_of, node, plan_of, put
from fuzzing.codec import Create, Write
from fuzzing.images import contents_of, finding, placement_of, tree_of

USERS = [user(1000, 7, (2, 9999)), user(1001, 8)]
YES, NO_ROOM = 1, 3
SIZE = 6000  # two blocks


def submit(log, plan):
    return struct.pack(">BII", 1, 7, len(log)) + log + struct.pack(">I", len(plan)) + plan


def created(number, fill, size=SIZE):
    """The call that creates a file of two blocks."""
    name = b"f%d" % number
    log = log_of([Create(1, name, number, FILE, 0o644), Write(number, 0, bytes([fill]) * size)])
    plan = plan_of([NameRow(1, name, number)], [node(number, size)], [put(number, 0, size, 1, 0)])
    return struct.pack(">BII", 1, 7, len(log)) + log + struct.pack(">I", len(plan)) + plan


def free(daemon):
    """The free places of each tier."""
    words = daemon.ask("free").splitlines()[0].replace(",", "").split()
    return int(words[8]), int(words[11]), int(words[14])


def create(daemon, connection, number):
    """Creates a file, as often as it takes."""
    for _ in range(200):
        answer = connection.ask(1, created(number, number)).answer
        if answer[4] == YES:
            return
        assert answer[4] == NO_ROOM, answer
        time.sleep(0.05)
    raise AssertionError(f"there is no room: {free(daemon)}")


def tiers_of(daemon):
    """On which tiers the blocks of each file lie, by the files of the desk, in which each byte is compared, too."""
    assert daemon.ask("checkpoint")
    raw = image_in(daemon.folder)
    assert finding(raw) is None
    contents = contents_of(raw)
    found = {}
    for (number, _), (tier, _) in placement_of(raw).items():
        found.setdefault(number, set()).add(tier)
        assert contents[number].read(0, SIZE) == bytes([number]) * SIZE, number
    assert set(found) == set(tree_of(raw).nodes) - {1}
    return found


def the_oldest_go_to_slower_tiers(made):
    """Where fewer than 10 of 40 places are free, the oldest files go until 20 are, and no others; a file that is written again is on tier 0."""
    with Daemon(*made, users=USERS, tiers=(40, 30, 60), duties={"free_percent": 25}).start() as daemon:
        if not has_look_ups(daemon):
            return
        seven = daemon.connect(7)
        assert seven.ask(0, lease(7, 1 << 40, writes=True)).answer
        for number in range(2, 17):
            create(daemon, seven, number)
        time.sleep(6)
        assert free(daemon) == (10, 30, 60) and daemon.status()["desk"]["moved_blocks"] == 0
        create(daemon, seven, 17)
        daemon.wait_for(lambda: free(daemon)[0] == 20)
        assert free(daemon) == (20, 18, 60) and daemon.status()["desk"]["moved_blocks"] == 12
        assert tiers_of(daemon) == {number: {1} if number < 8 else {0} for number in range(2, 18)}
        # back by itself none comes; what is written anew lies on tier 0
        assert seven.ask(0, struct.pack(">BIBQI", 6, 7, 1, 1 << 40, 2)).answer[4] == 4
        log, plan = log_of([Write(2, 0, bytes([2]) * SIZE)]), plan_of([], [], [put(2, 0, SIZE, 0, 0)])
        assert seven.ask(1, struct.pack(">BII", 1, 7, len(log)) + log + struct.pack(">I", len(plan)) + plan).answer[4] == YES
        assert free(daemon) == (18, 20, 60)
        assert tiers_of(daemon)[2] == {0}


def all_tiers_are_filled(made):
    """Files are created until all three tiers are nearly full, behind new starts of kfsd, too. Each has room once the oldest were moved."""
    with Daemon(*made, users=USERS, tiers=(20, 30, 40), duties={"free_percent": 20}).start() as daemon:
        if not has_look_ups(daemon):
            return
        seven = daemon.connect(7)
        assert seven.ask(0, lease(7, 1 << 40, writes=True)).answer
        for number in range(2, 42):
            create(daemon, seven, number)
            if number in (15, 30):
                assert daemon.stop()[0] == 0
                daemon.start()
                seven = daemon.connect(7)
        found = tiers_of(daemon)
        assert len(found) == 40 and {1} in found.values() and {2} in found.values()
        newest = [found[number] for number in range(38, 42)]
        assert all(0 in it for it in newest), newest
        print(f"    40 files of two blocks on tiers of 20, 30 and 40 places: {free(daemon)} are free")


def rows(daemon):
    """How many rows the docket has."""
    return int(re.search(r"rows of the docket: (\d+)", daemon.ask("free"))[1])


def moved(daemon):
    return daemon.status()["desk"]["moved_blocks"]


class Program(threading.Thread):
    """Creates files of two blocks as fast as it can, without a pause where there is no room."""

    def __init__(self, daemon, numbers):
        super().__init__()
        self.connection, self.numbers, self.calls, self.refused, self.fault = daemon.connect(7), numbers, 0, 0, None

    def run(self):
        try:
            for number in self.numbers:
                answer = None
                while answer != YES:
                    answer = self.connection.ask(1, created(number, number % 251 + 1)).answer[4]
                    assert answer in (YES, NO_ROOM), answer
                    self.calls += 1
                    self.refused += answer == NO_ROOM
        except BaseException as fault:  # noqa: BLE001
            self.fault = fault


def moves_keep_up_with_programs(made):
    """Three programs fill a desk as fast as they can. Each call of moves has many blocks of many files, so moves take few rows; kfsd knows by itself when few places are free."""
    with Daemon(*made, users=USERS, tiers=(1500, 3000, 4000), duties={"free_percent": 20}).start() as daemon:
        if not has_look_ups(daemon):
            return
        assert daemon.connect(7).ask(0, lease(7, 1 << 40, writes=True)).answer
        before = rows(daemon)
        programs = [Program(daemon, range(2 + at, 3602, 3)) for at in range(3)]
        for it in programs:
            it.start()
        for it in programs:
            it.join()
            assert it.fault is None, it.fault
        daemon.wait_for(lambda: free(daemon)[0] >= 300)
        calls = sum(it.calls for it in programs)
        spent, count = rows(daemon) - before - calls, moved(daemon)
        assert count >= 7200 - 1500 and sum(free(daemon)) == 8500 - 7200
        # the places of slower tiers are free but for those that kfsd has filled, so nothing is tried in vain
        assert 0 < spent <= count / 20, (spent, count)
        print(f"    {count} blocks of files of two blocks were moved by {spent} calls; of {calls} logs {sum(it.refused for it in programs)} had no room")


def a_new_kfsd_finds_free_places(made):
    """Behind a new start it isn't known which places are free. They are found by a few refusals, behind what is in use, and those before by the next round."""
    with Daemon(*made, users=USERS, tiers=(500, 1500, 0), duties={"free_percent": 20}).start() as daemon:
        if not has_look_ups(daemon):
            return
        number, spent, count = 2, 0, 0
        for _ in range(3):
            seven = daemon.connect(7)
            assert seven.ask(0, lease(7, 1 << 40, writes=True)).answer
            before, calls, was = rows(daemon), 0, moved(daemon)
            for number in range(number, number + 300):
                answer = None
                while answer != YES:
                    answer = seven.ask(1, created(number, number % 251 + 1)).answer[4]
                    calls += 1
            number += 1
            daemon.wait_for(lambda: free(daemon)[0] >= 100)
            spent, count = spent + rows(daemon) - before - calls, count + moved(daemon) - was
            assert daemon.stop()[0] == 0
            daemon.start()
        assert count > 1000 and spent < 150, (spent, count)
        print(f"    {count} blocks were moved by {spent} calls, behind two new starts, too")


def full_tiers_cost_nothing(made):
    """Where all tiers are full, logs are answered NoRoom and no row is spent on moves. It goes on once a file on a slower tier is removed."""
    with Daemon(*made, users=USERS, tiers=(40, 60, 80), duties={"free_percent": 20}).start() as daemon:
        if not has_look_ups(daemon):
            return
        seven = daemon.connect(7)
        assert seven.ask(0, lease(7, 1 << 40, writes=True)).answer
        number = 2
        while free(daemon) != (0, 0, 0):
            create(daemon, seven, number)
            number += 1
        oldest = next(it for it in range(2, number) if tiers_of(daemon)[it] == {1})
        before, looks = rows(daemon), daemon.status()["frames"]["own"]
        for count in range(1, 21):
            assert seven.ask(1, created(number, number)).answer[4] == NO_ROOM
            time.sleep(0.05)
            assert rows(daemon) == before + count
        # kfsd has looked meanwhile, which takes no row
        daemon.wait_for(lambda: daemon.status()["frames"]["own"] > looks + 5)
        assert seven.ask(0, lease_by_path(7, 1 << 40, b"/f%d" % oldest, writes=True)).answer[4] == 4
        assert seven.ask(1, submit(*file_gone(b"f%d" % oldest, oldest))).answer[4] == YES
        create(daemon, seven, number)
        assert {1} in tiers_of(daemon).values() and free(daemon)[1] == 0
        print(f"    {number - 1} files of two blocks on tiers of 40, 60 and 80 places")


def a_log_gets_what_it_needs(made):
    """Enough places are free, and fewer than a log needs: blocks are moved for it. For one that needs more than tier 0 has none are."""
    with Daemon(*made, users=USERS, tiers=(100, 200, 0), duties={"free_percent": 10}, frame_bytes=500_000, bytes_a_connection=600_000, bytes_a_user=600_000).start() as daemon:
        if not has_look_ups(daemon):
            return
        seven = daemon.connect(7)
        assert seven.ask(0, lease(7, 1 << 40, writes=True)).answer
        for number in range(2, 46):
            create(daemon, seven, number)
        assert free(daemon) == (12, 200, 0)
        log = [Create(1, b"g", 900, FILE, 0o644), *[Write(900, 65_536 * at, bytes([1]) * 65_536) for at in range(7)]]
        size = 7 * 65_536
        plan = plan_of([NameRow(1, b"g", 900)], [node(900, size)], [put(900, 65_536 * at, 65_536, 1 + at, 0) for at in range(7)])
        assert seven.ask(1, submit(log_of(log), plan)).answer[4] == NO_ROOM
        looks = daemon.status()["frames"]["own"]
        daemon.wait_for(lambda: daemon.status()["frames"]["own"] > looks)
        assert free(daemon) == (12, 200, 0)
        answer = None
        while answer != YES:
            answer = seven.ask(1, created(901, 1, 65_536)).answer[4]
            assert answer in (YES, NO_ROOM), answer
        assert free(daemon)[1] < 200


def empty_files_stand_in_nobodys_way(made):
    """The oldest of all are 3,000 empty files, of which nothing is moved: those behind them are."""
    with Daemon(*made, users=USERS, tiers=(40, 60, 0), duties={"free_percent": 25}).start() as daemon:
        if not has_look_ups(daemon):
            return
        seven = daemon.connect(7)
        assert seven.ask(0, lease(7, 1 << 40, writes=True)).answer
        assert seven.ask(1, submit(*files_made([b"e%d" % number for number in range(5000, 8000)], 5000))).answer[4] == YES
        for number in range(2, 18):
            create(daemon, seven, number)
        daemon.wait_for(lambda: free(daemon)[0] == 20)
        assert free(daemon) == (20, 48, 0)


def moves_go_on_behind_kills(made):
    """kfs_serve is killed while blocks are moved, and then while tier 0 is full: each file has room at the end."""
    with Daemon(*made, users=USERS, tiers=(60, 400, 100), duties={"free_percent": 40}).start() as daemon:
        if not has_look_ups(daemon):
            return
        seven = daemon.connect(7)
        assert seven.ask(0, lease(7, 1 << 40, writes=True)).answer
        own = itertools.count(1)
        for number in range(2, 202):
            answer, at = None, next(own)
            while answer != YES:
                reply = seven.ask(1, numbered(at, created(number, number)))
                answer = reply.answer and reply.answer[4]
                assert reply.answer or reply.refusal in (("Unknown", 0), ("UnderWay", 0)), reply
                assert answer in (None, YES, NO_ROOM), reply
                if answer == NO_ROOM:
                    at = next(own)
                    if at % 5 == 0:
                        daemon.kill_desk()
            if number % 20 == 0:
                daemon.kill_desk()
        assert sum(free(daemon)) == 560 - 400 and set(tiers_of(daemon)) == set(range(2, 202))
        print(f"    kfs_serve was started {daemon.status()['kfs_serve']['starts']} times while {moved(daemon)} blocks were moved")


TESTS = [the_oldest_go_to_slower_tiers, all_tiers_are_filled, moves_keep_up_with_programs, a_new_kfsd_finds_free_places, full_tiers_cost_nothing, a_log_gets_what_it_needs, empty_files_stand_in_nobodys_way, moves_go_on_behind_kills]
