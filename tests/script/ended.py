#!/usr/bin/env python3
"""A script that is ended leaves nothing behind: no process, no file. TERM, INT and HUP come while it reads standard input
or a pipe, while it copies for --words, while nobody takes what it writes back, and while the program is made; Ctrl-C and Ctrl-D
come from a terminal. Prints nothing unless something is wrong."""
import fcntl
import glob
import os
import pty
import select
import signal
import subprocess
import sys
import tempfile
import time

ROOT = os.path.dirname(os.path.dirname(os.path.dirname(os.path.realpath(__file__))))
PLAIN = os.path.join(ROOT, "kaunorpi")
SAW = os.path.join(ROOT, "examples", "saw.case")
LONG = os.path.join(ROOT, "tests", "cases", "letters-65535.case")
LINE = b"81000000000900000001000000010000000000000003"
NOBODY = "output"
failed = 0


def wrong(text):
    global failed
    failed = 1
    print("tests/script: " + text)


def processes(session):
    """The processes of a session that have not ended, as their states and names."""
    found = []
    for path in glob.glob("/proc/[0-9]*/stat"):
        try:
            with open(path) as stat:
                text = stat.read()
        except OSError:
            continue
        name, rest = text[text.index("(") + 1:text.rindex(")")], text[text.rindex(")") + 2:].split()
        if int(rest[3]) == session and rest[0] != "Z":
            found.append((int(text.split()[0]), name))
    return found


def until(test, seconds=20):
    """Waits until the test holds; whether it does."""
    end = time.time() + seconds
    while not test():
        if time.time() > end:
            return False
        time.sleep(0.01)
    return True


def left_behind(session):
    """What still runs of a session some seconds after its script: not what was about to end by itself when the script did,
    such as the `rt doc` that a signal found it reading."""
    left = []

    def is_none_left():
        left[:] = processes(session)
        return not left

    until(is_none_left, 5)
    return left


def usual_signals():
    for one in (signal.SIGINT, signal.SIGTERM, signal.SIGHUP, signal.SIGPIPE):
        signal.signal(one, signal.SIG_DFL)


def end(what, script, arguments, busy, env, sent, status):
    """Starts the script, sends the signal once `busy` runs below it, or what it wrote is taken by nobody, and looks at what is
    left."""
    come, gone = os.pipe()
    got, out = os.pipe()
    fcntl.fcntl(out, fcntl.F_SETPIPE_SZ, 4096)
    run = subprocess.Popen([script] + arguments, stdin=come, stdout=out, stderr=subprocess.DEVNULL, preexec_fn=usual_signals,
                           start_new_session=True, env=env)
    os.close(come)
    os.close(out)
    if busy == NOBODY:
        is_there = lambda: select.select([got], [], [], 0)[0]
    else:
        is_there = lambda: busy in [name for pid, name in processes(run.pid) if pid != run.pid]
    if not until(is_there):
        wrong("%s: no %s is seen" % (what, busy))
    time.sleep(0.1)
    run.send_signal(sent)
    if not until(lambda: run.poll() is not None):
        wrong("%s: %s does not end the script" % (what, sent.name))
    elif run.returncode != status:
        wrong("%s: after %s the status is %d" % (what, sent.name, run.returncode))
    left = left_behind(run.pid)
    if left:
        wrong("%s: %s leaves %s" % (what, sent.name, left))
    for pid, _ in left:
        os.kill(pid, signal.SIGKILL)
    run.wait()
    os.close(gone)
    os.close(got)
    if os.listdir(env["TMPDIR"]):
        wrong("%s: %s leaves files" % (what, sent.name))


def signals(room, env):
    pipe = os.path.join(room, "pipe")
    os.mkfifo(pipe)
    long_name = os.path.join(room, "./" * 1500 + "saw.case")
    os.symlink(SAW, os.path.join(room, "saw.case"))
    reader = "ld-linux-x86-64"
    ways = (("standard input", [], reader), ("standard input among files", [SAW, "-", SAW], reader), ("a pipe", [pipe, SAW, pipe], "bash"),
            ("--words", ["--words"], "head"), ("output that nobody takes", [long_name] * 40, NOBODY),
            ("--rewrite", ["--rewrite"], reader), ("a long file that nobody takes", ["--rewrite", LONG], NOBODY))
    for sent, status in ((signal.SIGTERM, 143), (signal.SIGINT, 130), (signal.SIGHUP, 129)):
        for what, arguments, busy in ways:
            if sent == signal.SIGTERM or what == "standard input":
                end(what, PLAIN, arguments, busy, env, sent, status)


def making(room, env):
    """The program is being made, by a kit that only pretends and waits."""
    subprocess.run(["bash", os.path.join(ROOT, "tests/script/tree.sh"), room], cwd=ROOT, check=True)
    env = dict(env, PATH=os.path.join(room, "bin") + ":" + env["PATH"], RATTLE_HOME=os.path.join(room, "kit"))
    for sent, status in ((signal.SIGTERM, 143), (signal.SIGINT, 130)):
        end("the making of the program", os.path.join(room, "tree/kaunorpi"), [SAW], "sleep", env, sent, status)


def at_terminal(typed, env):
    """What the script writes to a terminal, at which this is typed, and its status."""
    pid, terminal = pty.fork()
    if pid == 0:
        usual_signals()
        os.execve(PLAIN, [PLAIN], env)
    shown = b""
    is_typed = False
    while True:
        if not select.select([terminal], [], [], 20)[0]:
            wrong("at a terminal, the script waits for ever after %r" % shown)
            break
        try:
            shown += os.read(terminal, 4096)
        except OSError:
            break
        if not is_typed and b"Ctrl-D ends it" in shown:
            is_typed = True
            os.write(terminal, typed)
    os.close(terminal)
    return shown, os.waitstatus_to_exitcode(os.waitpid(pid, 0)[1]), left_behind(pid)


def terminals(env):
    with open(SAW, "rb") as case:
        shown, status, left = at_terminal(case.read() + b"\x04", env)
    if status != 0 or LINE not in shown or left:
        wrong("typed at a terminal, a case file gives %d, %r, %s" % (status, shown, left))
    shown, status, left = at_terminal(b"0104\n\x03", env)
    if status != 130 or left:
        wrong("Ctrl-C at a terminal gives %d, %r, %s" % (status, shown, left))


def main():
    signal.alarm(180)
    with tempfile.TemporaryDirectory() as room:
        kept = os.path.join(room, "kept")
        os.mkdir(kept)
        env = dict(os.environ, TMPDIR=kept)
        signals(room, env)
        making(room, env)
        terminals(env)
    sys.exit(failed)


main()
