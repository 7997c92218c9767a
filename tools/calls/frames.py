"""The frames and the calls of compiled functions, from what `objdump` shows (tools/descents, tools/stack)."""
import re
import subprocess

FUNCTION = re.compile(r"^[0-9a-f]+ <(.+)>:$")
CALL = re.compile(r"\t(call|jmp|j[a-z]+) +[0-9a-f]+ <(.+?)(?:\+0x[0-9a-f]+)?>$")
LOCALS = re.compile(r"\tsub +\$0x([0-9a-f]+),%rsp$")
# Large frames are sometimes taken by adding a negative number.
NEGATIVE = re.compile(r"\tadd +\$0x(ffffffff[0-9a-f]{8}),%rsp$")
WORD = 8


def frames_of(file):
    """Returns the bytes of each function's frame, the return address among them, and the functions that each one calls, also by
    a jump at its end."""
    ran = subprocess.run(["objdump", "-d", "--no-show-raw-insn", file], capture_output=True, text=True, errors="replace", check=True)
    frames, calls, name, begun = {}, {}, None, False
    for line in ran.stdout.splitlines():
        head = FUNCTION.match(line)
        if head:
            name, begun = head[1], False
            frames[name], calls[name] = frames.get(name, WORD), calls.get(name, set())
        elif name and not begun and "\tpush" in line:
            frames[name] += WORD
        elif name and (taken := LOCALS.search(line)) and not begun:
            frames[name] += int(taken[1], 16)
            begun = True
        elif name and (taken := NEGATIVE.search(line)) and not begun:
            frames[name] += (1 << 64) - int(taken[1], 16)
            begun = True
        elif name and (called := CALL.search(line)):
            begun = begun or called[1] == "call"
            is_inner = called[1] != "call" and called[2] == name
            if not is_inner:
                calls[name].add(called[2])
    for name in calls:
        calls[name] &= frames.keys()
    return frames, calls
