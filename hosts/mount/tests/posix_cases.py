"""The cases of posixing.py: what is there before a call, who makes it, the call, what is said of it, and what it leaves.

Each is a line with `|` between these. What is there before: `d:path:mode` a directory, `f:path:mode:size` a file, `l:path:target` a
symbolic link, `h:path:file` another name of a file, `p:path:mode` a FIFO, `s:path` a socket, `x:path:mode:program` a program of /bin.
All belongs to the user `owner`. The user `group` is in the same group, and `other` in none.
"""

N255, N256 = "n" * 255, "n" * 256
P4095, P4096 = "./" * 2047 + "f", "./" * 2046 + ".//f"
LONG = {"N255": N255, "N256": N256, "P4095": P4095, "P4096": P4096, "T1024": "t" * 1024, "T1025": "t" * 1025, "T4095": "t" * 4095, "T4096": "t" * 4096}

# Calls of one path: of a thing that is there, and of one that is to be made. `f` is a file, as is `g`.
FOLLOWING = ["chmod {} 644", "chown {} -1 1001", "truncate {} 0", "utimensat {} then", "open {} r", "open {} w", "stat {}", "access {} r"]
LEAVING = ["unlink {}", "link {} new", "rename {} new", "lchown {} -1 1001"]
ON_DIRECTORIES, ON_LINKS = ["rmdir {}", "list {}"], ["readlink {}"]
MAKING = ["mkdir {} 755", "mkfifo {} 644", "mknod {} 644", "mknod-socket {} 644", "symlink t {}", "open {} w+c", "link g {}", "rename g {}"]
CHANGING = ["chmod f 600", "chown f -1 1001", "truncate f 0", "utimensat f then", "utimensat f now", "open f w", "open f r+t", "unlink f", "link f new", "rename f new", "rename f g", "rmdir d", "mkdir new 755", "mkfifo new 644", "mknod new 644", "symlink t new", "open new w+c", "open f w+c"]
MASK = {"owner": 0o100, "group": 0o010, "other": 0o001}


def thing(call):
    """What there is to be for a call: the kind and what goes with its path."""
    return "d:{}:755" if call in ON_DIRECTORIES else "l:{}:t" if call in ON_LINKS else "f:{}:666"


def is_ok(call):
    """What a call says where all goes well."""
    return "ok t" if call in ON_LINKS else "ok"


def paths():
    """Each call with paths that lead nowhere, and with the longest ones."""
    there = FOLLOWING + LEAVING + ON_DIRECTORIES + ON_LINKS
    for call in there + MAKING:
        made = "f:g:666 f:f:666 l:loop:loop l:one:two l:two:one"
        yield made, "owner", call.format("f/x"), "ENOTDIR"
        yield made, "owner", call.format("none/x"), "ENOENT"
        yield made, "owner", call.format("''"), "ENOENT"
        yield made, "owner", call.format("N256"), "ENAMETOOLONG"
        yield made, "owner", call.format("N256/x"), "ENAMETOOLONG"
        yield made, "owner", call.format("P4096"), "ENAMETOOLONG"
        yield made, "owner", call.format("loop/x"), "ELOOP"
        yield made, "owner", call.format("one/x"), "ELOOP"
    for call in there:
        yield "", "owner", call.format("none"), "ENOENT"
        yield thing(call).format("N255"), "owner", call.format("N255"), is_ok(call)
        yield thing(call).format("f"), "owner", call.format("P4095"), is_ok(call)
    for call in MAKING:
        yield "f:g:666", "owner", call.format("N255"), "ok"
        yield "f:g:666", "owner", call.format("P4095"), "ok"
    for call in FOLLOWING:
        yield "l:f:loop l:loop:f", "owner", call.format("f"), "ELOOP"
        yield "l:f:none", "owner", call.format("f"), "ENOENT"
        yield "f:f:666 l:l:f", "owner", call.format("l"), "ok"


def permissions():
    """Each call where the bits of a directory keep its caller out, for each class of users."""
    there = FOLLOWING + LEAVING + ON_DIRECTORIES + ON_LINKS
    for who, bit in MASK.items():
        for call in there + MAKING:
            made = f"d:d:{0o777 & ~bit:o} f:g:666 " + (thing(call).format("d/f") if call in there else "")
            yield made, who, call.format("d/f"), "EACCES"
        shut, narrow = f"{0o777 & ~(bit << 1):o}", f"{bit * 3 | 0o700 if who != 'owner' else 0o300:o}"
        # A directory from which a file is renamed is written, too: the case's own.
        for call in MAKING:
            yield f"d:d:{shut} f:g:666", who, call.format("d/f"), "EACCES"
            yield f"d:d:{narrow} f:d/g:666", who, call.replace(" g ", " d/g ").format("d/f"), "ok"
        for call in ("unlink d/f", "rename d/f d/new", "rename d/f d/g", "rename d/g d/f"):
            yield f"d:d:{shut} f:d/f:666 f:d/g:666", who, call, "EACCES"
            yield f"d:d:{narrow} f:d/f:666 f:d/g:666", who, call, "ok"
        yield f"d:d:{shut} d:d/e:777", who, "rmdir d/e", "EACCES"
        yield f"d:d:{narrow} d:d/e:777", who, "rmdir d/e", "ok"
        yield f"d:d:{0o777 & ~(bit << 2):o}", who, "list d", "EACCES"
        yield f"d:d:{bit * 5 | (0 if who == 'owner' else 0o700):o} f:d/f:644", who, "list d", "ok f"
        yield from file_permissions(who, bit)


def file_permissions(who, bit):
    """Calls where the bits of a file keep their caller out."""
    without_read, without_write, without_run = (f"{0o777 & ~(bit << shift):o}" for shift in (2, 1, 0))
    own = 0 if who == "owner" else 0o700
    only_read, only_write, only_both = (f"{bit * bits | own:o}" for bits in (4, 2, 6))
    for call, wrong, right in (("open f r", without_read, only_read), ("open f w", without_write, only_write), ("open f rw", without_write, only_both), ("open f rw", without_read, only_both), ("open f w+t", without_write, only_write), ("open f r+t", without_write, only_both), ("open f w+c", without_write, only_write), ("truncate f 0", without_write, only_write), ("access f r", without_read, only_read), ("access f w", without_write, only_write), ("access f rw", without_write, only_both), ("access f x", without_run, f"{bit | own:o}")):
        yield f"f:f:{wrong}:5", who, call, "EACCES"
        yield f"f:f:{right}:5", who, call, "ok"
    yield f"x:f:{without_run}:true", who, "exec ./f", "EACCES"
    yield f"x:f:{bit * 5 | own:o}:true", who, "exec ./f", "ok 0"
    if who != "owner":
        yield f"f:f:{without_write}", who, "utimensat f now", "EACCES"
        yield f"f:f:{without_write}", who, "utimensat f both-now", "EACCES"
        yield f"f:f:{only_write}", who, "utimensat f now", "ok"
        yield f"f:f:{only_write}", who, "utimensat f both-now", "ok"
        for call in ("utimensat f then", "utimensat f read", "utimensat f written", "chmod f 644", "chown f -1 1000", "chown f 1000 -1", "fchmod f r 644"):
            yield "f:f:777", who, call, "EPERM"
        yield "f:f:777", who, "utimensat f omit", "ok"
        yield "d:d:777", who, "chmod d 755", "EPERM"
        # In a directory with the sticky bit names are their files' owners'.
        sticky = "d:d:1777 f:d/f:666 d:d/e:777 d:d/h:777"
        for call in ("unlink d/f", "rmdir d/e", "rename d/f d/new", "rename d/e d/new", "rename d/e d/h", "rename d/f new", "rename d/e d/h/e"):
            yield sticky, who, call, "EPERM"
        yield sticky, who, "open d/new w+c", "ok"
        yield sticky, who, "mkdir d/new 755", "ok"


def read_only():
    """Each call that would change a tree that is mounted for reading alone."""
    for call in CHANGING:
        yield "f:f:666 f:g:666 d:d:777", "owner", call, "EROFS"
    for call in ("open f r", "stat f", "access f r", "list d", "chown f -1 -1 "):
        yield "f:f:666 d:d:777", "owner", call, "EROFS" if call.startswith("chown") else "ok"
    for call, due in (("access f w", "EROFS"), ("mkdir d 755", "EEXIST"), ("unlink none", "EROFS"), ("open none r", "ENOENT"), ("rmdir none", "EROFS"), ("mkdir none/x 755", "ENOENT"), ("open f w+c+x", "EEXIST"), ("open d w", "EISDIR"), ("access p w", "ok")):
        yield "f:f:666 d:d:777 p:p:666", "owner", call, due


# ---- What each call has of its own, and what it leaves: c() and m() are times that change, and !c() and !m() ones that don't

OWN = """
f:f:644                             | owner | chmod f 600               | ok           | mode(f)=600 c(f) !m(f) !c(.)
f:f:644                             | owner | chmod f 0                 | ok           | mode(f)=0 size(f)=0
f:f:644                             | owner | chmod f 1644              | ok           | mode(f)=1644
f:f:644                             | owner | chmod f 2644              | ok           | mode(f)=2644
f:f:644                             | owner | chmod f 4755              | ok           | mode(f)=4755
d:d:755                             | owner | chmod d 1700              | ok           | mode(d)=1700 c(d) !m(d)
d:d:755                             | owner | chmod d 2755              | ok           | mode(d)=2755
f:f:644                             | owner | fchmod f r 400            | ok           | mode(f)=400
f:f:644                             | owner | fchmod f w 40             | ok           | mode(f)=40
f:f:644 l:l:f                       | owner | chmod l 600               | ok           | mode(f)=600 type(l)=l
p:p:644                             | owner | chmod p 600               | ok           | mode(p)=600 type(p)=p c(p)
p:p:644                             | owner | chmod p 0                 | ok           | mode(p)=0 type(p)=p
s:s                                 | owner | chmod s 700               | ok           | mode(s)=700 type(s)=s
f:f:644                             | other | chmod f 600               | EPERM        | mode(f)=644 !c(f)

f:f:644                             | owner | chown f -1 1001           | ok           | gid(f)=1001 uid(f)=1000 c(f) !m(f)
f:f:644                             | owner | chown f 1000 1000         | ok           | gid(f)=1000 uid(f)=1000
f:f:644                             | owner | chown f 1000 1001         | ok           | gid(f)=1001
f:f:644                             | owner | chown f -1 -1             | ok           |
f:f:644                             | owner | chown f -1 2002           | EPERM        | gid(f)=1000 !c(f)
f:f:644                             | owner | chown f 2002 -1           | EPERM        | uid(f)=1000 !c(f)
f:f:644                             | owner | chown f 0 0               | EPERM        | uid(f)=1000
f:f:644                             | owner | fchown f r -1 1001        | ok           | gid(f)=1001
d:d:755                             | owner | chown d -1 1001           | ok           | gid(d)=1001 c(d) !m(d)
f:f:644 l:l:f                       | owner | chown l -1 1001           | ok           | gid(f)=1001 gid(l)=1000
f:f:644 l:l:f                       | owner | lchown l -1 1001          | ok           | gid(f)=1000 gid(l)=1001
p:p:644                             | owner | chown p -1 1001           | ok           | gid(p)=1001 type(p)=p
f:f:666                             | other | chown f -1 -1             | ok           |

f:f:644:3                           | owner | link f g                  | ok           | links(f)=2 links(g)=2 size(g)=3 c(f) !m(f) c(.) m(.)
f:f:644 f:g:644                     | owner | link f g                  | EEXIST       | links(f)=1 !c(f) !c(.) !m(.)
f:f:644 d:d:755                     | owner | link f d                  | EEXIST       |
f:f:644 l:l:none                    | owner | link f l                  | EEXIST       |
f:f:644                             | owner | link f f                  | EEXIST       | links(f)=1
f:f:644 d:d:755                     | owner | link f d/.                | EEXIST       |
d:d:755                             | owner | link d e                  | EPERM        | gone(e)=True
f:f:644 l:l:f                       | owner | link l m                  | ok           | type(m)=l links(l)=2 links(f)=1
p:p:644                             | owner | link p q                  | ok           | type(q)=p links(p)=2
s:s                                 | owner | link s t                  | ok           | type(t)=s links(s)=2
f:f:644                             | owner | link f OTHER              | EXDEV        | links(f)=1
f:f:644                             | owner | links f 1023              | ok           | links(f)=1024
f:f:644                             | owner | links f 1024              | ok           | links(f)=1025
f:f:600                             | other | link f g                  | EPERM        | gone(g)=True

                                    | owner | mkdir d 755               | ok           | mode(d)=755 type(d)=d links(d)=2 c(.) m(.) uid(d)=1000 gid(d)=1000
                                    | owner | mkdir d 1777              | ok           | mode(d)=1777
                                    | owner | mkdir d 2777              | ok           | mode(d)=777
                                    | owner | umask=22 mkdir d 777      | ok           | mode(d)=755
                                    | owner | umask=777 mkdir d 777     | ok           | mode(d)=0
d:d:755                             | owner | mkdir d/e 755             | ok           | links(d)=3 m(d) c(d) !m(.)
d:d:755                             | owner | mkdir d 700               | EEXIST       | mode(d)=755 !c(d) !m(.)
f:d:755                             | owner | mkdir d 755               | EEXIST       | type(d)=-
l:d:none                            | owner | mkdir d 755               | EEXIST       | gone(none)=True
p:d:644                             | owner | mkdir d 755               | EEXIST       |
                                    | owner | mkdir . 755               | EEXIST       |
                                    | owner | mkdir d/. 755             | ENOENT       |
d:d:755                             | owner | mkdir d/.. 755            | EEXIST       |
                                    | owner | mkdir d/ 755              | ok           | type(d)=d

                                    | owner | mkfifo p 644              | ok           | mode(p)=644 type(p)=p size(p)=0 links(p)=1 c(.) m(.) uid(p)=1000
                                    | owner | umask=22 mkfifo p 666     | ok           | mode(p)=644
                                    | owner | mkfifo p 0                | ok           | mode(p)=0 type(p)=p
                                    | owner | mkfifo p 222              | ok           | mode(p)=222 type(p)=p
f:p:644                             | owner | mkfifo p 644              | EEXIST       | type(p)=- !m(.)
p:p:644                             | owner | mkfifo p 600              | EEXIST       | mode(p)=644
l:p:none                            | owner | mkfifo p 644              | EEXIST       |
d:p:755                             | owner | mkfifo p 644              | EEXIST       |
p:p:644                             | owner | through p                 | ok hello     | size(p)=0
p:p:644                             | owner | open p w+b                | ENXIO        |
p:p:644                             | owner | open p r+b                | ok           | !c(p)
p:p:644                             | owner | truncate p 0              | EINVAL       |
p:p:644                             | owner | rename p q                | ok           | type(q)=p gone(p)=True
p:p:644                             | owner | unlink p                  | ok           | gone(p)=True m(.)
p:p:200                             | other | open p r+b                | EACCES       |
p:p:200                             | owner | lstat p                   | ok           | type(p)=p
p:p:644                             | owner | utimensat p then          | ok           | m(p) type(p)=p
f:p:644:8                           | owner | stat p                    | ok           | type(p)=- size(p)=8
p:p:644                             | owner | kept-unlinked p           | ok 0 hello   |

                                    | owner | mknod f 644               | ok           | mode(f)=644 type(f)=- size(f)=0 m(.) c(.)
                                    | owner | umask=77 mknod f 666      | ok           | mode(f)=600
                                    | owner | mknod f 0                 | ok           | mode(f)=0
f:f:644                             | owner | mknod f 600               | EEXIST       | mode(f)=644 !m(.)
                                    | owner | mknod-fifo p 640          | ok           | mode(p)=640 type(p)=p
                                    | owner | mknod-socket s 640        | ok           | mode(s)=640 type(s)=s size(s)=0
                                    | owner | mknod-char c 640          | EPERM        | gone(c)=True
                                    | owner | mknod-block b 640         | EPERM        | gone(b)=True
                                    | owner | umask=22 bind s           | ok           | mode(s)=755 type(s)=s m(.)
s:s                                 | owner | bind s                    | EADDRINUSE   |
f:s:644                             | owner | bind s                    | EADDRINUSE   | type(s)=-
                                    | owner | connect s                 | ok hello     | type(s)=s
s:s                                 | owner | open s r                  | ENXIO        |
s:s                                 | owner | rename s t                | ok           | type(t)=s
s:s                                 | owner | unlink s                  | ok           | gone(s)=True
s:s                                 | owner | truncate s 0              | EINVAL       |

                                    | owner | open f w+c 644            | ok           | mode(f)=644 size(f)=0 links(f)=1 uid(f)=1000 gid(f)=1000 c(.) m(.)
                                    | group | open f w+c 644            | ok           | uid(f)=2001 gid(f)=1000
                                    | other | open f w+c 644            | ok           | uid(f)=2002 gid(f)=2002
                                    | owner | umask=27 open f w+c 666   | ok           | mode(f)=640
                                    | owner | open f w+c 0              | ok           | mode(f)=0
                                    | owner | open f r+c 400            | ok           | mode(f)=400
                                    | owner | open f w+c 1644           | ok           | mode(f)=1644
f:f:644:5                           | owner | open f w+c 600            | ok           | mode(f)=644 size(f)=5 !c(f) !m(f) !c(.) !m(.)
f:f:644:5                           | owner | open f w+t                | ok           | size(f)=0 c(f) m(f) !m(.)
f:f:644:5                           | owner | open f r                  | ok           | !c(f) !m(f)
f:f:644:0                           | owner | open f w+t                | ok           | size(f)=0 c(f) m(f)
f:f:644                             | owner | open f w+c+x              | EEXIST       | !c(f) !m(.)
l:l:none                            | owner | open l w+c+x              | EEXIST       | gone(none)=True
l:l:none                            | owner | open l w+c                | ok           | type(none)=- type(l)=l
d:d:755                             | owner | open d w                  | EISDIR       |
d:d:755                             | owner | open d rw                 | EISDIR       |
d:d:755                             | owner | open d r+t                | EISDIR       |
d:d:755                             | owner | open d r+c                | EISDIR       |
d:d:755                             | owner | open d r                  | ok           |
d:d:755                             | owner | open d r+d                | ok           |
f:f:644                             | owner | open f r+d                | ENOTDIR      |
f:f:644                             | owner | open f/ r                 | ENOTDIR      |
                                    | owner | open f/ w+c               | EISDIR       |
f:f:644 l:l:f                       | owner | open l r+n                | ELOOP        |
f:f:644 l:l:f                       | owner | open l r+n+p              | ok           |
f:f:644 l:l:f                       | owner | open l/ r                 | ENOTDIR      |
f:f:644                             | owner | open f r+q                | ok           |
f:f:644                             | other | open f r+q                | EPERM        |
f:f:644                             | owner | open f w+a                | ok           |
f:f:644                             | owner | open f r+i                | ok           |
f:f:644                             | owner | open f w+y                | ok           |
d:d:755                             | owner | open d rw+m               | ok           |
f:f:644                             | owner | open f r+m                | EINVAL       |
f:f:0                               | owner | open f r+p                | ok           |

f:f:644:3                           | owner | rename f g                | ok           | size(g)=3 links(g)=1 gone(f)=True c(.) m(.)
f:f:644:3 f:g:644:5                 | owner | rename f g                | ok           | size(g)=3 gone(f)=True links(g)=1
f:f:644:3 f:g:0:5                   | owner | rename f g                | ok           | size(g)=3 mode(g)=644
f:f:0:3                             | owner | rename f g                | ok           | size(g)=3 mode(g)=0
f:f:644 h:g:f                       | owner | rename f g                | ok           | links(f)=2 links(g)=2
f:f:644                             | owner | rename f f                | ok           | !c(f) !m(.)
f:f:644 f:g:644 h:h:g               | owner | rename f g                | ok           | links(h)=1 c(h)
d:d:755 d:e:755 f:d/f:644           | owner | rename d/f e/f            | ok           | m(d) c(d) m(e) c(e) !m(.)
d:d:755 f:d/f:644                   | owner | rename d e                | ok           | type(e)=d type(e/f)=- gone(d)=True m(.)
d:d:755 d:e:755 f:d/f:644           | owner | rename d e                | ok           | type(e/f)=- gone(d)=True
d:d:755 d:e:755                     | owner | rename d e/d              | ok           | links(e)=3 links(.)=3
d:d:755 d:e:755 f:e/f:644           | owner | rename d e                | ENOTEMPTY    | type(d)=d !m(.)
d:d:755 f:f:644                     | owner | rename d f                | ENOTDIR      |
d:d:755 f:f:644                     | owner | rename f d                | EISDIR       |
d:d:755                             | owner | rename d d                | ok           |
d:d:755                             | owner | rename d d/e              | EINVAL       | gone(d/e)=True
d:d:755 d:d/e:755                   | owner | rename d d/e/f            | EINVAL       |
d:d:755 d:d/e:755                   | owner | rename d/e d              | ENOTEMPTY    |
d:d:755                             | owner | rename . e                | EBUSY        |
d:d:755                             | owner | rename d/. e              | EBUSY        |
d:d:755                             | owner | rename d/.. e             | EBUSY        |
f:f:644 d:d:755                     | owner | rename f d/.              | EBUSY        |
d:d:755 d:e:755                     | owner | rename d e/..             | EBUSY        |
f:f:644                             | owner | rename f g/               | ENOTDIR      |
d:d:755                             | owner | rename d e/               | ok           | type(e)=d
f:f:644                             | owner | rename f OTHER            | EXDEV        | type(f)=-
d:d:755                             | owner | rename d OTHER            | EXDEV        | type(d)=d
f:f:644 l:l:f                       | owner | rename l m                | ok           | type(m)=l
f:f:644:3 l:l:none                  | owner | rename f l                | ok           | type(l)=- size(l)=3
p:p:644 f:f:644                     | owner | rename p f                | ok           | type(f)=p
f:f:644 p:p:644                     | owner | rename f p                | ok           | type(p)=-
f:f:644 f:g:644                     | owner | renameat2 f g noreplace   | EEXIST       |
f:f:644                             | owner | renameat2 f g noreplace   | ok           | gone(f)=True
f:f:644:3 f:g:644:5                 | owner | renameat2 f g exchange    | ok           | size(f)=5 size(g)=3
f:f:644                             | owner | renameat2 f g exchange    | ENOENT       |
f:f:644 f:g:644                     | owner | renameat2 f g all         | EINVAL       |
d:d:555 d:d/e:755                   | owner | rename d e                | ok           | type(e/e)=d
d:d:555 d:e:755                     | owner | rename d e/d              | EACCES       |
d:d:755 d:e:0                       | owner | rename d e                | ok           | gone(d)=True
d:d:0                               | owner | rename d e                | ok           | mode(e)=0
f:f:644 f:g:644                     | owner | kept-replaced f g         | ok 0 hello   | size(f)=0

d:d:755                             | owner | rmdir d                   | ok           | gone(d)=True c(.) m(.) links(.)=2
d:d:755 f:d/f:644                   | owner | rmdir d                   | ENOTEMPTY    | !m(.) !c(d)
d:d:755 d:d/e:755                   | owner | rmdir d                   | ENOTEMPTY    | links(d)=3
f:f:644                             | owner | rmdir f                   | ENOTDIR      |
d:d:755 l:l:d                       | owner | rmdir l                   | ENOTDIR      | type(d)=d
p:p:644                             | owner | rmdir p                   | ENOTDIR      |
d:d:755                             | owner | rmdir d/.                 | EINVAL       |
d:d:755 d:d/e:755                   | owner | rmdir d/e/..              | ENOTEMPTY    |
                                    | owner | rmdir .                   | EINVAL       |
d:d:755                             | owner | rmdir d/                  | ok           | gone(d)=True
d:d:0                               | owner | rmdir d                   | ok           | gone(d)=True
d:d:300                             | owner | rmdir d                   | ok           | gone(d)=True
d:d:555                             | owner | rmdir d                   | ok           | gone(d)=True

                                    | owner | symlink t l               | ok           | type(l)=l mode(l)=777 size(l)=1 links(l)=1 uid(l)=1000 c(.) m(.)
                                    | owner | umask=77 symlink t l      | ok           | mode(l)=777
                                    | owner | symlink '' l              | ENOENT       | gone(l)=True
                                    | owner | symlink T1024 l           | ok           | size(l)=1024
                                    | owner | symlink T1025 l           | ok           | size(l)=1025
                                    | owner | symlink T4095 l           | ok           | size(l)=4095
                                    | owner | symlink T4096 l           | ENAMETOOLONG | gone(l)=True
f:l:644                             | owner | symlink t l               | EEXIST       | type(l)=-
l:l:u                               | owner | symlink t l               | EEXIST       | size(l)=1
d:l:755                             | owner | symlink t l               | EEXIST       |
                                    | owner | symlink t .               | EEXIST       |
f:f:644                             | owner | readlink f                | EINVAL       |
d:d:755                             | owner | readlink d                | EINVAL       |
l:l:a/b                             | owner | readlink l                | ok a/b       |
l:l:t                               | owner | unlink l                  | ok           | gone(l)=True

f:f:644:5                           | owner | truncate f 3              | ok           | size(f)=3 c(f) m(f) !m(.)
f:f:644:5                           | owner | truncate f 9              | ok           | size(f)=9 c(f) m(f)
f:f:644:5                           | owner | truncate f 5              | ok           | size(f)=5
f:f:644:5                           | owner | truncate f -1             | EINVAL       | size(f)=5 !c(f)
f:f:644:5                           | owner | truncate f 4294967296     | ok           | size(f)=4294967296
f:f:644:5                           | owner | truncate f 4294967297     | ok           | size(f)=4294967297
f:f:644:5                           | owner | fsize=10 truncate f 10    | ok           | size(f)=10
f:f:644:5                           | owner | fsize=10 truncate f 11    | EFBIG        | size(f)=5
d:d:755                             | owner | truncate d 0              | EISDIR       |
f:f:644:5                           | owner | ftruncate f rw 3          | ok           | size(f)=3 c(f) m(f)
f:f:644:5                           | owner | ftruncate f w 9           | ok           | size(f)=9
f:f:644:5                           | owner | ftruncate f r 3           | EINVAL       | size(f)=5 !c(f)
f:f:644:5                           | owner | ftruncate f w -1          | EINVAL       |
d:d:755                             | owner | ftruncate d r 0           | EINVAL       |
f:f:644:5                           | owner | fsize=10 ftruncate f w 11 | EFBIG        | size(f)=5
f:f:444                             | owner | ftruncate f w 3           | EACCES       |
f:f:644                             | owner | write f w hello           | ok           | size(f)=5 c(f) m(f) !m(.)
f:f:644:9                           | owner | write f w hello           | ok           | size(f)=9
f:f:644:3                           | owner | write f w+a hello         | ok           | size(f)=8
f:f:644                             | owner | write f w hello 100       | ok           | size(f)=105
f:f:644                             | owner | write f r hello           | EBADF        |
f:f:644                             | owner | fsize=10 write f w xy 10  | EFBIG        | size(f)=0
f:f:644                             | owner | write f w x 4294967295    | ok           | size(f)=4294967296
f:f:644                             | owner | write f w x 4294967296    | ok           | size(f)=4294967297
f:f:644:3                           | owner | read f                    | ok xxx       | !c(f) !m(f) a(f)
d:d:755                             | owner | read d                    | EISDIR       |
f:f:644                             | owner | fsync f r                 | ok           |
d:d:755                             | owner | fsync d r                 | ok           |

f:f:644:3                           | owner | unlink f                  | ok           | gone(f)=True c(.) m(.)
f:f:644 h:g:f                       | owner | unlink f                  | ok           | links(g)=1 c(g) !m(g)
f:f:0                               | owner | unlink f                  | ok           | gone(f)=True
d:d:755                             | owner | unlink d                  | EISDIR       | type(d)=d
d:d:755                             | owner | unlink d/.                | EISDIR       |
f:f:644                             | owner | unlink f/                 | ENOTDIR      |
f:f:644 l:l:f                       | owner | unlink l                  | ok           | type(f)=-
f:f:644                             | owner | kept-unlinked f           | ok 0 hello   | gone(f)=True
f:f:644 h:g:f                       | owner | kept-unlinked f           | ok 1 hello   | size(g)=5
f:f:644                             | owner | kept-renamed f g          | ok 1 hello   | size(g)=5

f:f:644                             | owner | utimensat f then          | ok           | mtime(f)=1000000000000000123 c(f) a(f)
f:f:644                             | owner | utimensat f before        | ok           | mtime(f)=-4999999993
f:f:644                             | owner | utimensat f late          | ok           | mtime(f)=8589934592999999999
f:f:644                             | owner | utimensat f now           | ok           | m(f) c(f) a(f)
f:f:644                             | owner | utimensat f both-now      | ok           | m(f) a(f)
f:f:644                             | owner | utimensat f omit          | ok           | !m(f) !c(f) !a(f)
f:f:644                             | owner | utimensat f read          | ok           | !m(f) a(f) c(f)
f:f:644                             | owner | utimensat f written       | ok           | m(f) !a(f) c(f)
f:f:644                             | owner | utimensat f wrong         | EINVAL       | !m(f) !c(f)
f:f:0                               | owner | utimensat f then          | ok           | m(f)
f:f:444                             | owner | utimensat f now           | ok           | m(f)
d:d:755                             | owner | utimensat d then          | ok           | m(d) !m(.)

x:f:755:true                        | owner | exec ./f                  | ok 0         |
x:f:111:true                        | owner | exec ./f                  | ok 0         |
x:f:755:true                        | owner | exec-written ./f          | ETXTBSY      |
x:f:755:sleep                       | owner | open-running f            | ETXTBSY      |
x:f:755:sleep                       | owner | truncate-running f        | ETXTBSY      |
d:f:755                             | owner | exec ./f                  | EACCES       |
d:d:755                             | owner | chdir d                   | ok           |
d:d:655                             | owner | chdir d                   | EACCES       |
f:f:644                             | owner | chdir f                   | ENOTDIR      |
d:d:755                             | owner | in-removed d open f w+c   | ENOENT       | gone(d)=True
d:d:755                             | owner | in-removed d mkdir e 755  | ENOENT       |
d:d:755                             | owner | in-removed d symlink t l  | ENOENT       |
d:d:755                             | owner | in-removed d mkfifo p 644 | ENOENT       |
d:d:755 f:f:644                     | owner | in-removed d rename ../f g | ENOENT      | type(f)=-
d:d:755 f:f:644                     | owner | in-removed d link ../f g  | ENOENT       | links(f)=1
d:d:755                             | owner | in-removed d list .       | ok           |
d:d:755                             | owner | in-removed d rmdir .      | EINVAL       |
d:d:755                             | owner | in-removed d stat .       | ok           |
d:d:755                             | owner | busy=d rmdir d            | EBUSY        | type(d)=d
d:d:755                             | owner | busy=d rename d e         | EBUSY        |
d:d:755 d:e:755                     | owner | busy=d rename e d         | EBUSY        |
"""


def own():
    for line in OWN.strip().splitlines():
        if line.strip():
            made, who, call, due, leaves = (part.strip() for part in line.split("|"))
            yield made, who, call, due, leaves
