"""A user of a machine who has no right to anything there, and tries the ports of kfsd: a program that proving.py starts in a namespace.

    stranger.py listen ADDRESS PORT HOW OTHER   takes a member's port, and prints what each connection has sent
    stranger.py hold ADDRESS PORT COUNT         begins so many connections, and is silent
    stranger.py say ADDRESS PORT FIRST THEN     sends bytes, and others behind an answer; prints all that came until the end
    stranger.py member ADDRESS PORT KEY VOLUME CALLER LISTENER BYTES
                                                proves the key as docs/CLUSTER.md says, sends bytes, and prints what both have said
"""
import contextlib
# Python loads it where a host is named, and may not as another user.
import encodings.idna  # noqa: F401
import hashlib
import hmac
import os
import socket
import sys
import threading
import time

USER = 43998
# How long it waits for what may not come.
PATIENCE = 6


def put(data):
    """Prints bytes as a line, at once and whole."""
    os.write(1, data.hex().encode() + b"\n")


def take(it, count):
    """So many bytes, or fewer up to the end."""
    found = b""
    while len(found) < count:
        data = it.recv(count - len(found))
        if not data:
            break
        found += data
    return found


def take_all(it):
    """What comes until the end; with a mark behind it where that doesn't come."""
    found = b""
    try:
        while data := it.recv(65536):
            found += data
    except ConnectionError:
        pass
    except OSError:
        found += b"(open)"
    return found


def answer(how, it, heard, other, port):
    """Answers one that has connected, as somebody without the key may."""
    if how == "garbage":
        it.sendall(os.urandom(64))
    elif how == "echo":
        it.sendall((heard[7:] + heard)[:64])
    elif how == "between":
        # between it and another member
        with socket.create_connection((other, port), PATIENCE) as there:
            there.sendall(heard)
            it.sendall(take(there, 64))
            more = it.recv(65536)
            there.sendall(more)
            return more + take_all(it)
    return take_all(it)


def serve(how, it, other, port):
    heard = b""
    it.settimeout(PATIENCE)
    with contextlib.suppress(OSError), it:
        heard = it.recv(65536)
        heard += answer(how, it, heard, other, port)
    put(heard)


def listen(address, port, how, other):
    here = socket.socket()
    here.setsockopt(socket.SOL_SOCKET, socket.SO_REUSEADDR, 1)
    end = time.monotonic() + PATIENCE
    while True:
        try:
            here.bind((address, port))
            break
        except OSError:
            if time.monotonic() > end:
                raise
            time.sleep(0.001)
    here.listen(512)
    put(b"bound")
    while True:
        it, _ = here.accept()
        threading.Thread(target=serve, args=(how, it, other, port), daemon=True).start()


def hold(address, port, count):
    held = [socket.create_connection((address, port)) for _ in range(count)]
    put(b"held")
    time.sleep(600)
    del held


def say(address, port, first, then):
    with socket.create_connection((address, port), PATIENCE) as it:
        it.sendall(first)
        came = b""
        with contextlib.suppress(OSError):
            if then:
                came = take(it, 64)
                # an answer that says nothing of its own is sent back
                it.sendall(came[32:] + then[1:] if then[:1] == b"@" else then)
        put(came + take_all(it))


def told(key, direction, texts, called, listened):
    """The answer of a direction to both nonces."""
    data = b"".join(bytes([len(text)]) + text for text in (direction, *texts)) + called + listened
    return hmac.new(key, data, hashlib.sha256).digest()


def member(address, port, key, texts, data):
    called = os.urandom(32)
    first = b"\0\0KFSM\x02" + called + bytes([len(texts[1])]) + texts[1]
    with socket.create_connection((address, port), PATIENCE) as it:
        it.sendall(first)
        came = take(it, 64)
        assert hmac.compare_digest(came[32:], told(key, b"kfsd 2 listens", texts, called, came[:32])), "it hasn't proved the key"
        last = told(key, b"kfsd 2 connects", texts, called, came[:32]) + data
        it.sendall(last)
        it.shutdown(socket.SHUT_WR)
        put(first + last)
        put(came + take_all(it))


def main():
    os.setgroups([])
    os.setgid(USER)
    os.setuid(USER)
    what, address, port, *words = sys.argv[1:]
    port = int(port)
    if what == "listen":
        listen(address, port, *words)
    elif what == "hold":
        hold(address, port, int(words[0]))
    elif what == "say":
        say(address, port, *map(bytes.fromhex, words))
    else:
        key, volume, caller, listener, data = words
        member(address, port, bytes.fromhex(key), [it.encode() for it in (volume, caller, listener, f"{address}:{port}")], bytes.fromhex(data))


if __name__ == "__main__":
    main()
