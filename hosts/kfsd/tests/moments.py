"""What happened on each machine while another one took over, by the logs of kfsd."""
import datetime
import os
import re
import time

LINE = re.compile(r"(\d{4}-\d\d-\d\dT\d\d:\d\d:\d\d\.\d{6})Z +[A-Z]+ (.*)")
COLOURS = re.compile(r"\x1b\[[0-9;]*m")
READY = "clients may connect"
TOLD = (READY, "asks to lead", "leads", "follows volume", "an own leader", "no sign is given", "has come from", "no member of etcd", "hasn't made")
# What takes longer than this is told in full.
LONG = 3


class Moments:
    """The moments from now on."""

    def __init__(self, cluster):
        self.began, self.cluster = time.time(), cluster
        self.marks = {it: os.path.getsize(it.log) for it in cluster.machines}

    def all(self):
        """What was told since, each with how many seconds that was behind the beginning, and by which machine."""
        found = []
        for it, mark in self.marks.items():
            with open(it.log, "rb") as log:
                log.seek(mark)
                text = COLOURS.sub("", log.read().decode(errors="replace"))
            for at, said in LINE.findall(text):
                moment = datetime.datetime.fromisoformat(at).replace(tzinfo=datetime.timezone.utc).timestamp()
                found.append((moment - self.began, it.name, said))
        return sorted(found)

    def took(self):
        """How long it took until another one led, and clients could connect to it. Where that was long, prints the moments."""
        found = [it for it in self.all() if it[0] > 0]
        took = next(moment for moment, _, said in found if READY in said)
        if took > LONG:
            for moment, name, said in found:
                if moment <= took and any(word in said for word in TOLD):
                    print(f"        {moment:6.2f} s, {name}: {said}")
        return took
