"""Real programs: what each says and leaves on a mount must be what it says and leaves on a tmpfs.

Scripts run in a folder of their own, as a user. `TREE` names a tree of 5,000 files to copy from.
"""
import hashlib
import os
import re
import stat
import subprocess
import tempfile

# What git writes that tells times, numbers of nodes, where the folder is, and that there are no symbolic links.
UNLIKE = re.compile(r"\.git/(index|config|logs/.*)")
GIT = {f"GIT_{who}_{what}": value for who in ("AUTHOR", "COMMITTER") for what, value in (("NAME", "a"), ("EMAIL", "a@b"), ("DATE", "@0 +0000"))}
DIRECTORIES, FILES = 50, 100
SECONDS = 900

GIT_SCRIPT = """
git init -q -b main r && cd r
for i in $(seq 60); do echo $i > f$i; done; ln -s f3 l3
git add . && git commit -qm one && git rm -q f7 && git commit -qm two
git -c gc.auto=0 fsck --strict && git gc -q && git fsck
cd .. && git clone -q r r2 && cd r2 && git fsck && git log --format=%s
cd .. && git clone -q --bare --no-local r b.git && cd r2 && echo more > f8 && git commit -qam three
git push -q ../b.git main && cd .. && git -C b.git fsck && git -C b.git log --format=%s
"""
SQLITE_SCRIPT = """
sqlite3 t.db 'create table t(a, b);
    with recursive c(x) as (select 1 union all select x + 1 from c where x < 3000) insert into t select x, x * 7 from c;
    delete from t where a % 3 = 0; create index i on t(b); vacuum; pragma integrity_check; select count(*) from t'
sqlite3 w.db 'create table t(a); pragma journal_mode = wal; insert into t values (1), (2);
    begin; insert into t values (3); rollback; select count(*) from t; pragma integrity_check'
"""
# What two processes have put in is counted: its order, and so the bytes, are as they came.
TWO_PROCESSES_SCRIPT = """
for mode in delete wal; do
    sqlite3 $mode.db "pragma journal_mode = $mode; create table t(a integer primary key, who)"
    for who in 1 2; do
        for i in $(seq 30); do echo "insert into t(who) values ($who);"; done | sqlite3 -cmd '.timeout 300000' $mode.db & children[$who]=$!
    done
    wait ${children[1]} && wait ${children[2]}
    sqlite3 $mode.db 'select who, count(*) from t group by who; pragma integrity_check' && rm $mode.db*
done
"""
MAKE_SCRIPT = r"""
mkdir p && cd p && for i in 1 2 3 4; do echo "int f$i(int x){return x*$i;}" > f$i.c; done
echo 'int f1(int);int f2(int);int f3(int);int f4(int);int main(void){return f1(f2(f3(f4(1))));}' > main.c
printf 'p: main.o f1.o f2.o f3.o f4.o\n\tcc -o p $^\n' > Makefile
make -s && { ./p; echo $?; } && make -q && echo done
ar rc l.a f1.o f2.o && ranlib l.a && strip -o q p && { ./q; echo $?; } && rm l.a
"""
TAR_SCRIPT = """
mkdir s && for d in $(seq 20); do mkdir -m 750 s/$d && for f in $(seq 50); do seq $((d * f)) > s/$d/$f; done; done
chmod 400 s/3/4 && ln s/1/1 s/2/one && ln -s ../1/2 s/2/two && ln -s nowhere s/3/none
tar cf s.tar --sort=name --mtime=@0 s && mkdir t && tar xf s.tar -C t && diff -r --no-dereference s t/s
cp -a s u && diff -r --no-dereference s u && rm -rf s && find u -type f | wc -l
"""
RSYNC_SCRIPT = """
mkdir s && for d in $(seq 5); do mkdir s/$d && for f in $(seq 20); do seq $((d * f * 9)) > s/$d/$f; done; done; ln s/1/1 s/2/one; ln -s 1/2 s/two
rsync -aH s/ t/ && rsync -aHin s/ t/ && diff -r --no-dereference s t
rm -r s/3 && echo new > s/1/1 && rsync -aHO --delete -i s/ t/ | cut -c 1-4 | sort | uniq -c
echo newer > s/1/1 && rsync -aH --inplace -c s/ t/ && diff -r --no-dereference s t
rsync -aH --link-dest=../t s/ u/ && diff -r --no-dereference s u
"""
COPY_SCRIPT = """
cp -a $TREE t && diff -r $TREE t && find t | wc -l && du -s --apparent-size -b t | cut -f1 > /dev/null
find t -name '*7' -type f -delete && mv t/d3 t/d4/ && find t -type f -newer t | wc -l > /dev/null && find t | wc -l
"""
# Its blocks tell times, so the file goes.
FIO_SCRIPT = """
words='--filename=f --size=4m --verify=crc32c --verify_fatal=1 --do_verify=1 --randseed=7 --ioengine=psync --minimal --verify_state_save=0'
fio --name=one --bs=4k --rw=randwrite --fsync=64 $words > /dev/null
fio --name=two --bsrange=512-16k --bs_unaligned=1 --rw=randwrite --fsync=100 $words > /dev/null
fio --name=three --bs=128k --rw=write $words > /dev/null
fio --name=four --bs=4k --rw=randrw --verify=md5 --ioengine=mmap --filename=g --size=2m --do_verify=1 --verify_fatal=1 --minimal --verify_state_save=0 > /dev/null
rm f g
"""
# It is stopped by the clock, with whatever it has made by then. Its semaphore may be another one's that runs beside it.
DBENCH_SCRIPT = """
until dbench -c /usr/share/dbench/client.txt -t 3 -D . 1 > said 2>&1 && ! grep -q 'barrier semaphore' said; do
    grep -q 'barrier semaphore' said || { tail said; false; }
done
! grep -i fail said; rm -r said clients
"""
STRESS_SCRIPT = """
for one in hdd:100 access:20 chmod:50 copy-file:20 dentry:200 dir:200 dirdeep:20 dirmany:100 dup:50 fcntl:50 filename:50 flock:50 fsize:20 \
    fstat:50 getdent:50 io:5 locka:50 lockf:50 lockofd:50 open:100 rename:200 seek:100 touch:200 utime:100; do
    stress-ng -q --temp-path . --verify --timeout 60 --${one%:*} 1 --${one%:*}-ops ${one#*:} || { echo $one; false; }
done
"""
COMPILE_SCRIPT = """
mkdir m && for i in $(seq 30); do echo "def f(): return $i" > m/m$i.py; done
python3 -m compileall -q --invalidation-mode checked-hash m && python3 -c 'import m.m7; print(m.m7.f())'
"""
PROGRAMS = [
    ("git", GIT_SCRIPT), ("sqlite3", SQLITE_SCRIPT), ("sqlite3", TWO_PROCESSES_SCRIPT), ("make", MAKE_SCRIPT), ("tar", TAR_SCRIPT),
    ("rsync", RSYNC_SCRIPT), ("cp", COPY_SCRIPT), ("fio", FIO_SCRIPT), ("dbench", DBENCH_SCRIPT), ("stress-ng", STRESS_SCRIPT), ("python3", COMPILE_SCRIPT),
]


def is_there(name):
    return subprocess.run(["which", name], check=False, capture_output=True).returncode == 0


def make_tree(folder):
    """Makes the tree that is copied: 5,000 files of different sizes and modes."""
    for at in range(DIRECTORIES):
        os.mkdir(f"{folder}/d{at}")
        for number in range(FILES):
            path = f"{folder}/d{at}/f{number}"
            with open(path, "wb") as it:
                it.write(b"%d %d\n" % (at, number) * (number * number // 16))
            os.chmod(path, (0o644, 0o600, 0o755, 0o444)[number % 4] | 0o044)
    os.chmod(folder, 0o755)


def snapshot(folder):
    """What stands in a folder: of each path its kind, mode, owner, links and bytes."""
    found = {}
    for path, names, files in os.walk(folder):
        for name in names + files:
            whole = f"{path}/{name}"
            header = os.lstat(whole)
            short = whole.removeprefix(folder)
            if stat.S_ISDIR(header.st_mode):
                found[short] = (oct(header.st_mode), header.st_uid, header.st_gid)
            elif stat.S_ISLNK(header.st_mode):
                found[short] = (oct(header.st_mode), header.st_uid, header.st_gid, header.st_nlink, os.readlink(whole))
            elif not UNLIKE.search(short):
                with open(whole, "rb") as it:
                    digest = hashlib.sha256(it.read()).hexdigest()
                found[short] = (oct(header.st_mode), header.st_uid, header.st_gid, header.st_nlink, header.st_size, digest)
    return found


def run_script(home, script, user, tree):
    """Runs a script as a user in a new folder of its own. Returns what it says."""
    words = ["bash", "-ec", f"mkdir {home} && cd {home} && {{ {script}\n}}"]
    names = {**os.environ, **GIT, "HOME": "/nonexistent", "TREE": tree}
    ran = subprocess.run(words, cwd="/", env=names, user=user, group=user, extra_groups=[], umask=0o022, capture_output=True, text=True, timeout=SECONDS)
    assert ran.returncode == 0, f"{script}\nended with status {ran.returncode}\n{ran.stderr[-2000:]}{ran.stdout[-2000:]}"
    return ran.stdout.replace(home, ".")


def differences(found, due):
    """Paths that aren't alike, and how they are."""
    return {path: (found.get(path), due.get(path)) for path in sorted(found.keys() | due.keys()) if found.get(path) != due.get(path)}


class Due:
    """What each program says and leaves on a tmpfs, tried once for each user."""

    def __init__(self):
        self.room = tempfile.TemporaryDirectory(prefix="kfs-tree-", dir="/dev/shm")
        os.chmod(self.room.name, 0o755)
        self.tree = f"{self.room.name}/tree"
        os.mkdir(self.tree)
        make_tree(self.tree)
        self.programs = [each for each in PROGRAMS if is_there(each[0])]

    def __enter__(self):
        return self

    def __exit__(self, *_):
        self.room.cleanup()

    def of(self, script, user):
        with tempfile.TemporaryDirectory(prefix="kfs-tmpfs-", dir="/dev/shm") as room:
            os.chmod(room, 0o777)
            return run_script(f"{room}/work", script, user, self.tree), snapshot(f"{room}/work")

    def compare(self, home, script, user):
        """Runs a script in a folder of a mount, and compares. Returns how many paths it leaves."""
        due = self.of(script, user)
        said = run_script(home, script, user, self.tree)
        assert said == due[0], f"{script}\nsays {said}, and on a tmpfs {due[0]}"
        differ = differences(snapshot(home), due[1])
        assert not differ, (script, dict(list(differ.items())[:5]))
        return len(due[1])
