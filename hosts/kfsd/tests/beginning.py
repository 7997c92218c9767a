"""Volumes that begin with a desk that is there: that of one kfsd, and the state that a member has kept."""
import os
import shutil
import struct
import tempfile

from clustering import ends_alike, image_in
from killing import NO, YES, submission
from machines import Cluster, state_in, state_of
from numbering import AGAIN
from running import Daemon, lease, numbered, user

# What kfsd ends with where its words or its configuration don't serve.
WRONG = 1


def base_of(machine):
    """The state that a member keeps."""
    with open(f"{machine.folder}/base", "rb") as it:
        return state_of(it.read())


def fill(connection, count):
    """Takes a lease, creates so many files, and sets a time. Returns the answers to the numbered calls, and the times of a node."""
    answers = [connection.ask(1, numbered(0, lease(7, 1 << 40, writes=True))).answer]
    answers += [connection.ask(1, numbered(1 + at, submission(at))).answer for at in range(count)]
    assert answers[0][4] == 4 and all(it[4] == YES for it in answers[1:]), answers
    connection.send(1, struct.pack(">BIq", 0xF5, 2, -5))
    assert connection.next() == (1, bytes([0xF5, 1]))
    return answers, connection.times(2)


def has_all(leader, answers, told):
    """Looks whether the desk has what was filled in: leases, answers and times. A file is there that can't be created again."""
    seven = leader.connect(7)
    assert [seven.ask(1, numbered(at)).answer for at in range(len(answers))] == [AGAIN + it[4:] for it in answers]
    assert seven.times(2) == told and told is not None
    assert seven.ask(1, submission(0)).answer[4] == NO
    assert leader.connect(8).ask(1, lease(8, 100, writes=True)).answer[4] == 8


def a_volume_begins_with_a_desk(made):
    """The desk of one kfsd becomes that of three machines: all have its state, and go on from it. It isn't begun twice, nor with none by mistake."""
    with Daemon(*made) as alone, Cluster(made, is_begun=False) as cluster:
        first, second, third = cluster.machines
        answers, told = fill(alone.start().connect(7), 20)
        moment = alone.connect(7).moment()[0]
        status, said = first.begin_with(alone.folder)
        assert (status, "a kfsd has it" in said) == (WRONG, True), said
        assert alone.stop()[0] == 0
        for name in ("first.kdjl", "second.kdjl", "clients", "kfsd.sqlite"):
            shutil.copy(f"{alone.folder}/{name}", third.folder)
        third.begin()
        third.is_wanted = False
        assert third.ended() == WRONG and "--begin-with" in third.said()
        assert not cluster.rows("origin")
        status, said = first.begin_with(alone.folder)
        assert status == 0, said
        for it, folder in ((second, alone.folder), (third, third.folder)):
            status, said = it.begin_with(folder)
            assert (status, "is there already" in said) == (WRONG, True), said
        cluster.first = 1
        cluster.begin()
        cluster.wait_for(lambda: len(cluster.rows("base/")) == 3)
        with tempfile.TemporaryDirectory(prefix="kfsd-begun-") as room:
            due = state_in(alone.program, alone.folder, f"{room}/copy")
        assert [base_of(it) == due for it in cluster.machines] == [True] * 3
        leader = cluster.leader()
        has_all(leader, answers, told)
        assert leader.connect(7).moment()[0] >= moment
        assert leader.connect(7).ask(1, numbered(100, submission(20))).answer[4] == YES
        leader.process.kill()
        leader, _ = cluster.another_leads()
        has_all(leader, answers, told)
        ends_alike(cluster, alone.folder)


def a_volume_begins_with_files_alone(made):
    """A fifo in the folder of a desk is told, and isn't waited for."""
    with Daemon(*made) as alone, Cluster(made, is_begun=False) as cluster:
        fill(alone.start().connect(7), 1)
        assert alone.stop()[0] == 0
        for name in ("second.kdjl", "kfsd.sqlite", "kfsd.sqlite-wal", "base"):
            path, away = f"{alone.folder}/{name}", f"{alone.room}/{name}"
            if os.path.exists(path):
                os.rename(path, away)
            os.mkfifo(path)
            status, said = cluster.machines[0].begin_with(alone.folder)
            assert status != 0 and f"{path} isn't a regular file" in said, (status, said)
            os.remove(path)
            if os.path.exists(away):
                os.rename(away, path)
        status, said = cluster.machines[0].begin_with(alone.folder)
        assert status == 0, said


def a_volume_begins_with_clients_that_can_be(made):
    """Grants that have a number in common are told before anything is in etcd, so the volume begins once they are mended."""
    with Cluster(made, is_begun=False) as cluster:
        first = cluster.machines[0]
        right = first.users
        first.users = [*right, user(1999, 19, right[0]["grant"])]
        first.begin()
        first.is_wanted = False
        assert first.ended() == WRONG and "user 1999: its grant has numbers of client 7" in first.said()
        assert not cluster.rows("origin")
        first.users = right
        cluster.begin()
        assert cluster.leader().connect(7).ask(1, lease(7, 10)).answer


def a_volume_begins_with_a_kept_state(made):
    """All that etcd has is lost. A copy of what a member keeps begins another volume on all machines, and no member begins an empty one by mistake."""
    with Cluster(made, settings={"state_bytes": 2_000}, is_watched=False) as cluster, tempfile.TemporaryDirectory(prefix="kfsd-backup-") as backup:
        first, second, third = cluster.machines
        answers, told = fill(cluster.leader().connect(7), 30)
        # a state is kept behind groups, and these calls are refused
        own, at = cluster.leader().connect(7), 1000
        filled = cluster.next()
        while not os.path.exists(f"{first.folder}/base") or int(dict(cluster.rows("base/"))["kfsd/volume/base/a"].split()[0], 16) < filled:
            assert own.ask(1, numbered(at, submission(0))).answer[4] == NO
            at += 1
        cluster.settle()
        shutil.copy(f"{first.folder}/base", backup)
        due = image_in(base_of(first))
        cluster.lose_etcd()
        first.begin()
        first.is_wanted = False
        assert first.ended() == WRONG and "--begin-with" in first.said()
        assert not cluster.rows("origin")
        status, said = second.begin_with(backup)
        assert (status, "has a state of another volume" in said) == (WRONG, True), said
        for it in cluster.machines:
            shutil.rmtree(it.folder)
            os.mkdir(it.folder, 0o700)
        status, said = second.begin_with(backup)
        assert status == 0, said
        cluster.begin()
        has_all(cluster.leader(), answers, told)
        cluster.settle()
        images = {image_in(it.state(f"{backup}/states")) for it in cluster.machines}
        assert images == {due}


TESTS = [a_volume_begins_with_a_desk, a_volume_begins_with_files_alone, a_volume_begins_with_clients_that_can_be, a_volume_begins_with_a_kept_state]
