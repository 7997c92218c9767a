"""Machines of one volume: each is a network namespace of its own, with a member of etcd and a kfsd. None of them reaches another network."""
import base64
import contextlib
import json
import os
import random
import shutil
import signal
import subprocess
import tempfile
import threading
import time

from running import FRONT, SOON, Daemon, children_of, frame, kept_in

from frames import Server, checkpoint  # noqa: I001

NETWORK, HUB, CLIENTS_PORT, PEERS_PORT, KFSD_PORT = "10.77.0", 254, 2379, 2380, 9470
VOLUME = "volume"
NAMES = ("a", "b", "c")
# kfsd ends with it where it leads no more: a new start makes it a member again.
LOST = 5
# A line in which a member of etcd tells what was put has fewer bytes.
LONGEST_LINE = 16 << 20
# The files of a desk.
FILES = ("first.kdjl", "second.kdjl")
# The user of etcd that kfsd is where etcd asks who it is, and the passwords of that and of etcd's superuser.
ETCD_USER, PASSWORD, ROOT_PASSWORD = "kfsd", "a-password", "another-password"
# The name that all certificates of etcd have.
ETCD_NAME = "etcd.example"


def ip(*words, check=True):
    return subprocess.run(["ip", *words], check=check, capture_output=True, text=True)


def toml(value):
    """A value of a configuration."""
    if isinstance(value, dict):
        return "{ " + ", ".join(f"{name} = {toml(it)}" for name, it in value.items()) + " }"
    return json.dumps(value)


class Authority:
    """One that signs certificates, with its files in a folder."""

    def __init__(self, room, name="authority"):
        self.room, self.name = room, name
        self.openssl("req", "-x509", "-newkey", "ec", "-pkeyopt", "ec_paramgen_curve:prime256v1", "-nodes", "-days", "2", "-subj", f"/O={name}", "-keyout", self.file(name, "key"), "-out", self.file(name, "pem"))

    def openssl(self, *words):
        subprocess.run(["openssl", *words], check=True, capture_output=True)

    def file(self, name, kind):
        return f"{self.room}/{name}.{kind}"

    @property
    def own(self):
        return self.file(self.name, "pem")

    def sign(self, file, *names):
        """Makes a certificate that has these names, for either end of a connection. Returns what a table of the configuration says of it."""
        certificate, key, request, words = (self.file(file, kind) for kind in ("pem", "key", "csr", "ext"))
        self.openssl("req", "-new", "-newkey", "ec", "-pkeyopt", "ec_paramgen_curve:prime256v1", "-nodes", "-subj", "/O=kfsd", "-keyout", key, "-out", request)
        os.chmod(key, 0o600)
        with open(words, "w", encoding="ascii") as it:
            it.write(f"subjectAltName = {', '.join(names)}\nextendedKeyUsage = serverAuth, clientAuth\nbasicConstraints = CA:FALSE\n")
        self.openssl("x509", "-req", "-in", request, "-CA", self.own, "-CAkey", self.file(self.name, "key"), "-CAcreateserial", "-days", "2", "-extfile", words, "-out", certificate)
        return {"authority": self.own, "certificate": certificate, "private_key": key}


def state_of(data):
    """The state that a file of a journal, or a state that is kept, begins with."""
    assert data[:4] == b"KDJL" and data[12] == 1
    return data[21 : 21 + int.from_bytes(data[13:21], "big")]


def state_in(program, folder, copy):
    """The bytes of the state that the files in a folder stand for, by a copy of them. Nobody has them open."""
    os.mkdir(copy)
    for name in FILES:
        shutil.copy(f"{folder}/{name}", copy)
    server = Server([program, "open", copy, str((1 << 32) - 1)])
    found = state_now(server, copy)
    assert server.close() == 0
    return found


def state_now(server, folder):
    """The state of a desk that is running, by a checkpoint of its journal."""
    server.send(frame(1, FRONT, checkpoint()))
    assert server.receive(1)[0].answer is not None
    found = []
    for name in FILES:
        with open(f"{folder}/{name}", "rb") as it:
            data = it.read()
        if data[:4] == b"KDJL" and data[12] == 1:
            found.append((data[4:12], state_of(data)))
    return max(found)[1]


class Machine(Daemon):
    """A namespace, and what runs in it."""

    def __init__(self, cluster, name, made, volume=VOLUME, port=KFSD_PORT, **settings):
        super().__init__(*made, **settings)
        self.certificate = cluster.authority.sign(f"member-{name}", f"DNS:{name}") if cluster.authority else None
        self.volume, self.port = volume, port
        self.cluster, self.name = cluster, name
        at = NAMES.index(name)
        self.space, self.address = f"{cluster.space}-{name}", f"{NETWORK}.{at + 1}"
        self.etcd, self.is_wanted, self.is_cut = None, False, False
        self.statuses = []
        # where the files of kfs_serve are in memory
        self.memory = tempfile.mkdtemp(prefix="kfsd-", dir="/dev/shm") if cluster.is_in_memory else None

    @property
    def replica(self):
        return f"{self.memory or self.folder}/replica"

    def put_config(self):
        super().put_config()
        settings = {
            "etcd": [it.endpoint for it in self.cluster.in_order(self)], "volume": self.volume, "member": self.name,
            "peer": f"{self.address}:{self.port}", "key_file": f"{self.cluster.room}/key", **self.cluster.settings, **self.secrets(),
        }
        if self.memory:
            settings["replica_folder"] = self.memory
        with open(f"{self.room}/kfsd.toml", "a", encoding="utf-8") as it:
            it.write("\n".join(["[cluster]", *(f"{name} = {toml(value)}" for name, value in settings.items())]) + "\n")

    @property
    def endpoint(self):
        """Where its member of etcd answers."""
        return ("https://" if self.cluster.authority else "") + f"{self.address}:{CLIENTS_PORT}"

    def secrets(self):
        """What kfsd shows etcd and other members."""
        found = {}
        if self.cluster.is_guarded:
            found |= {"etcd_user": ETCD_USER, "etcd_password_file": f"{self.cluster.room}/password"}
        if self.cluster.authority:
            found |= {"etcd_tls": {**self.cluster.shown, "name": ETCD_NAME}, "peer_tls": self.certificate}
        return found

    def link(self):
        """Makes the namespace, and its wire to the others."""
        ip("netns", "add", self.space)
        ip("-n", self.cluster.space, "link", "add", f"w{self.name}", "type", "veth", "peer", "name", "wire", "netns", self.space)
        ip("-n", self.cluster.space, "link", "set", f"w{self.name}", "master", "hub", "up")
        ip("-n", self.space, "addr", "add", f"{self.address}/24", "dev", "wire")
        for device in ("lo", "wire"):
            ip("-n", self.space, "link", "set", device, "up")

    def cut(self, is_cut):
        """Takes the wire away, or gives it back."""
        self.is_cut = is_cut
        ip("-n", self.cluster.space, "link", "set", f"w{self.name}", "down" if is_cut else "up")

    def start_etcd(self):
        own = f"http://{self.address}"
        clients = f"{'https' if self.cluster.authority else 'http'}://{self.address}:{CLIENTS_PORT}"
        words = {
            "name": self.name, "data-dir": f"{self.room}/etcd", "listen-client-urls": clients, "advertise-client-urls": clients,
            "listen-peer-urls": f"{own}:{PEERS_PORT}", "initial-advertise-peer-urls": f"{own}:{PEERS_PORT}", "initial-cluster-token": self.cluster.space,
            # as docs/CLUSTER.md has it for a local network
            "heartbeat-interval": "50", "election-timeout": "500",
            # what is removed takes room until it is compacted
            "auto-compaction-mode": "revision", "auto-compaction-retention": "1000",
            "initial-cluster": ",".join(f"{it.name}=http://{it.address}:{PEERS_PORT}" for it in self.cluster.machines),
        }
        if self.cluster.authority:
            shown = self.cluster.shown
            words |= {"cert-file": shown["certificate"], "key-file": shown["private_key"], "trusted-ca-file": shown["authority"], "client-cert-auth": "true"}
        with open(f"{self.room}/etcd.log", "ab") as log:
            self.etcd = subprocess.Popen(["ip", "netns", "exec", self.space, "etcd", *(f"--{name}={value}" for name, value in words.items())], stdout=log, stderr=log)

    def kill_etcd(self):
        self.etcd.kill()
        self.etcd.wait()

    def begin(self):
        """Starts kfsd, without waiting."""
        self.put_config()
        words = ["ip", "netns", "exec", self.space, f"{self.binaries}/kfsd", "--verbose", "--config", f"{self.room}/kfsd.toml"]
        with open(self.log, "ab") as log:
            self.process = subprocess.Popen(words, stdin=subprocess.DEVNULL, stdout=log, stderr=log)
        self.is_wanted = True

    def look_after(self):
        """Starts kfsd anew where it has ended, as its unit does where its status lets it."""
        if self.is_wanted and self.process.poll() is not None:
            self.statuses.append(self.process.returncode)
            assert self.process.returncode in (LOST, -signal.SIGKILL), f"kfsd {self.name} has ended with status {self.process.returncode}"
            self.begin()

    def stop(self):
        self.is_wanted = False
        return super().stop()

    def state(self, room):
        """The bytes of the state that the files stand for. kfsd has ended."""
        os.makedirs(room, exist_ok=True)
        return state_in(self.program, self.replica, f"{room}/{self.name}")

    def begin_with(self, folder):
        """Begins the volume with the desk in a folder. Returns how that ended, and what was said."""
        self.put_config()
        words = ["ip", "netns", "exec", self.space, f"{self.binaries}/kfsd", "--config", f"{self.room}/kfsd.toml", "--begin-with", folder]
        said = subprocess.run(words, check=False, capture_output=True, text=True, timeout=4 * SOON)
        return said.returncode, said.stderr

    def kept(self):
        return kept_in(self.replica)[1]

    def next_group(self):
        """The number of the next group that it makes the calls of; None where it isn't there."""
        try:
            return self.status()["volume"]["next_group"]
        except subprocess.CalledProcessError:
            return None

    def refused(self, *words):
        """What kfsctl says where kfsd has no answer."""
        said = subprocess.run([f"{self.binaries}/kfsctl", "--control", f"{self.room}/control", *words], check=False, capture_output=True, text=True, timeout=SOON)
        assert said.returncode != 0, said
        return said.stderr

    def stand_still(self):
        """Stops kfsd, and returns once all of its threads stand."""
        os.kill(self.process.pid, signal.SIGSTOP)
        tasks = f"/proc/{self.process.pid}/task"
        while True:
            states = set()
            for task in os.listdir(tasks):
                with open(f"{tasks}/{task}/stat", encoding="ascii", errors="replace") as it:
                    states.add(it.read().rpartition(")")[2].split()[0])
            if states == {"T"}:
                return
            time.sleep(0.001)

    def go_on(self):
        os.kill(self.process.pid, signal.SIGCONT)

    def hesitate(self, seconds):
        """Lets the member of etcd, and then kfs_serve, stand for so long, as where a disk is slow."""
        for held in [os.pidfd_open(self.etcd.pid), *children_of(self.process.pid)]:
            with contextlib.suppress(ProcessLookupError):
                signal.pidfd_send_signal(held, signal.SIGSTOP)
                time.sleep(seconds)
                signal.pidfd_send_signal(held, signal.SIGCONT)
            os.close(held)

    def leads(self):
        """Whether it has said that it leads, and not since that it follows."""
        said = self.said()
        return self.process.poll() is None and said.rfind("clients may connect") > said.rfind("follows volume")

    def __exit__(self, *fault):
        self.is_wanted = False
        super().__exit__(*fault)
        if self.etcd and self.etcd.poll() is None:
            self.kill_etcd()
        if self.memory:
            shutil.rmtree(self.memory, ignore_errors=True)


class Cluster:
    """Three machines and the wire between them. Threads connect to whichever leads."""

    def __init__(self, made, settings=None, is_watched=True, is_begun=True, is_in_memory=False, is_guarded=False, has_tls=False, **words):
        self.space = f"kfsd-{os.getpid()}"
        self.settings, self.is_watched, self.is_begun, self.watchers = settings or {}, is_watched, is_begun, []
        self.is_in_memory = is_in_memory
        # The number of the first group.
        self.first = 0
        self.room = tempfile.mkdtemp(prefix="kfsd-cluster-")
        # Whether etcd asks who it is; who signs certificates where TLS is used, and what etcd shows, and is shown by kfsd and etcdctl.
        self.is_guarded, self.authority = is_guarded, Authority(self.room) if has_tls else None
        addresses = [f"IP:{NETWORK}.{at + 1}" for at in range(len(NAMES))]
        self.shown = self.authority.sign("etcd", f"DNS:{ETCD_NAME}", *addresses) if has_tls else None
        self.lock = threading.Lock()
        # The revision at which the leader's key that was found last was put.
        self.term = 0
        self.machines = []
        self.machines = [Machine(self, name, made, **words) for name in NAMES]
        self.held = contextlib.ExitStack()
        self.users = self.machines[0].users

    def in_order(self, first):
        """The machines, this one first."""
        return [first, *(it for it in self.machines if it is not first)]

    def __enter__(self):
        try:
            self.start()
        except BaseException as fault:
            self.held.__exit__(type(fault), fault, fault.__traceback__)
            raise
        return self

    def start(self):
        """Makes the namespaces, and starts all in them. Returns when one leads, or etcd answers."""
        assert shutil.which("etcd") and shutil.which("etcdctl"), "hosts/setup installs etcd"
        self.held.callback(self.unlink)
        self.put_secret("key", os.urandom(32))
        ip("netns", "add", self.space)
        ip("-n", self.space, "link", "add", "hub", "type", "bridge")
        ip("-n", self.space, "addr", "add", f"{NETWORK}.{HUB}/24", "dev", "hub")
        ip("-n", self.space, "link", "set", "hub", "up")
        for it in self.machines:
            self.held.push(it.__exit__)
            it.link()
        for it in self.machines:
            it.start_etcd()
        self.wait_for(lambda: self.etcdctl("endpoint", "health").returncode == 0)
        if self.is_guarded:
            self.guard()
        if self.is_watched:
            self.watch()
        if self.is_begun:
            self.begin()

    def put_secret(self, name, data):
        """Puts what its owner alone may read into a file."""
        with open(f"{self.room}/{name}", "wb", opener=lambda path, flags: os.open(path, flags, 0o600)) as it:
            it.write(data)

    def guard(self):
        """Has etcd ask who it is, as docs/CLUSTER.md says."""
        self.put_secret("password", PASSWORD.encode() + b"\n")
        self.is_guarded = False
        for words in (
            ("user", "add", f"root:{ROOT_PASSWORD}"), ("user", "grant-role", "root", "root"), ("role", "add", "kfsd"),
            ("role", "grant-permission", "kfsd", "readwrite", "--prefix=true", "kfsd/"), ("role", "grant-permission", "kfsd", "readwrite", "--prefix=true", "kfsd-volumes/"),
            ("user", "add", f"{ETCD_USER}:{PASSWORD}"), ("user", "grant-role", ETCD_USER, "kfsd"), ("auth", "enable"),
        ):
            said = self.etcdctl(*words)
            assert said.returncode == 0, said.stderr
        self.is_guarded = True

    def etcdctl_words(self, endpoints):
        """The command that asks these members of etcd, as its superuser."""
        words = ["ip", "netns", "exec", self.space, "etcdctl", "--endpoints", endpoints]
        if self.is_guarded:
            words += ["--user", f"root:{ROOT_PASSWORD}"]
        if self.authority:
            words += ["--cacert", self.shown["authority"], "--cert", self.shown["certificate"], "--key", self.shown["private_key"]]
        return words

    def begin(self):
        """Starts each kfsd. Returns when one leads."""
        for it in self.machines:
            it.begin()
        self.leader()

    def lose_etcd(self):
        """Takes away all that etcd has."""
        for it in self.machines:
            it.kill_etcd()
            shutil.rmtree(f"{it.room}/etcd")
        for it in self.machines:
            it.start_etcd()
        self.wait_for(lambda: self.etcdctl("endpoint", "health").returncode == 0)

    def __exit__(self, *fault):
        return self.held.__exit__(*fault)

    def watch(self):
        """Has each member of etcd tell all that is put."""
        self.watchers = [self.watcher(it, 1) for it in self.machines]

    def watcher(self, it, revision):
        """Has a member of etcd tell all that is put from a revision on."""
        words = [*self.etcdctl_words(it.endpoint), "watch", "--rev", str(revision), "--prefix", f"kfsd/{VOLUME}/", "-w", "json"]
        with open(f"{self.room}/{it.name}", "ab") as to:
            return subprocess.Popen(words, stdout=to, stderr=subprocess.DEVNULL, env={**os.environ, "ETCDCTL_API": "3"})

    def told_up_to(self, it):
        """The last revision that a member of etcd has told."""
        with open(f"{self.room}/{it.name}", "rb") as told:
            told.seek(max(0, os.path.getsize(told.name) - LONGEST_LINE))
            lines = [line for line in told.read().split(b"\n")[:-1] if line.startswith(b"{") and line.endswith(b"}")]
        for line in reversed(lines):
            events = json.loads(line).get("Events")
            if events:
                return max(event["kv"]["mod_revision"] for event in events)
        return 0

    def watch_on(self):
        """A member that has no leader of its own for a while ends what it tells: it is asked again."""
        for at, (it, watcher) in enumerate(zip(self.machines, self.watchers)):
            if watcher.poll() is not None and it.etcd.poll() is None and not it.is_cut:
                self.watchers[at] = self.watcher(it, self.told_up_to(it) + 1)

    def puts(self):
        """All that was ever put, in its order, each with its revision, its key and its value: what was told, and what is there now."""
        rows = self.asked("")
        for it in self.machines:
            with open(f"{self.room}/{it.name}", "rb") as told:
                events = [event for line in told.read().split(b"\n")[:-1] for event in json.loads(line)["Events"] or ()]
            rows += [event["kv"] for event in events if "type" not in event]
        found = {}
        for row in rows:
            key = base64.b64decode(row["key"]).decode().removeprefix(f"kfsd/{VOLUME}/")
            put = base64.b64decode(row.get("value", ""))
            assert found.setdefault((row["mod_revision"], key), put) == put
        return [(revision, key, value) for (revision, key), value in sorted(found.items())]

    def unlink(self):
        for it in self.watchers:
            it.kill()
            it.wait()
        shutil.rmtree(self.room, ignore_errors=True)
        for it in (*self.machines, self):
            ip("netns", "del", it.space, check=False)

    def wait_for(self, is_so, seconds=2 * SOON):
        now = time.monotonic()
        end = now + seconds
        while not is_so():
            before, now = now, time.monotonic()
            # Where all of this stood still meanwhile, that doesn't count.
            end += now - before if now - before > 10 else 0
            assert now < end, "nothing came in time"
            self.look_after()
            time.sleep(0.02)

    def look_after(self):
        for it in self.machines:
            if it.process:
                it.look_after()
        self.watch_on()

    def etcdctl(self, *words, data=None):
        """Asks the members of etcd that can be reached."""
        endpoints = ",".join(it.endpoint for it in self.machines if not it.is_cut and it.etcd.poll() is None)
        words = [*self.etcdctl_words(endpoints), "--command-timeout=2s", *words]
        return subprocess.run(words, check=False, input=data, capture_output=True, env={**os.environ, "ETCDCTL_API": "3"})

    def asked(self, first, *words):
        """What etcd has at the keys of the volume that begin so."""
        end = time.monotonic() + SOON
        while True:
            said = self.etcdctl("get", "--prefix", f"kfsd/{VOLUME}/{first}", "-w", "json", *words)
            if said.returncode == 0:
                return json.loads(said.stdout).get("kvs", [])
            # It has no leader of its own for a while.
            assert time.monotonic() < end, said.stderr

    def rows(self, first, *words):
        """The keys and values of the volume that begin so."""
        return [(base64.b64decode(row["key"]).decode(), base64.b64decode(row.get("value", ""))) for row in self.asked(first, *words)]

    def leader(self, behind=0):
        """The machine that leads by a key that was put behind this revision, once its socket is there."""
        found = []

        def is_there():
            for row in self.asked("leader"):
                name = base64.b64decode(row["value"]).decode().split()[0]
                found[:] = [it for it in self.machines if it.name == name and row["mod_revision"] > behind and it.leads()]
                self.term = row["mod_revision"]
            return bool(found)

        self.wait_for(is_there)
        return found[0]

    def another_leads(self):
        """The machine that leads behind the one that did when it was asked for last, and how long that took."""
        began = time.monotonic()
        return self.leader(self.term), time.monotonic() - began

    def volumes(self):
        """What kfsctl prints of the volumes in etcd."""
        endpoints = ",".join(f"{it.address}:{CLIENTS_PORT}" for it in self.machines)
        words = ["ip", "netns", "exec", self.space, f"{self.machines[0].binaries}/kfsctl", "volumes", "--etcd", endpoints]
        return subprocess.run(words, check=True, capture_output=True, text=True, timeout=SOON).stdout

    def next(self):
        """The number of the next group."""
        return int(self.rows("next")[0][1], 16)

    def connect_or_none(self, client):
        """A connection to a kfsd that takes one, whether it leads or hands it on."""
        for it in random.sample(self.machines, len(self.machines)):
            with contextlib.suppress(OSError):
                return it.connect(client)
        return None

    def settle(self):
        """Waits until each member has made the calls of all groups, and stops all. Nothing comes while those stop that follow."""
        self.wait_for(lambda: [it.next_group() for it in self.machines] == [self.next()] * len(self.machines))
        leader = self.leader()
        leader.stand_still()
        for it in self.machines:
            if it is not leader:
                assert it.stop()[0] == 0
        leader.go_on()
        assert leader.stop()[0] == 0
