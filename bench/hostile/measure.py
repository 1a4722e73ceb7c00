"""Runs a program once and prints its status, seconds of wall and processor time, and its peak of memory in KiB, and then how it answers:
the bytes of its output and its first line. The words are the input's file, the greatest number of seconds, and the program with its words.

It is a process of its own, and a small one, since a child's peak of memory counts the memory of the process that it is forked from."""

import os
import signal
import sys
import time


def main():
    path, seconds, words = sys.argv[1], int(sys.argv[2]), sys.argv[3:]
    out_path = path + ".out"
    begin = time.monotonic()
    child = os.fork()
    if child == 0:
        os.dup2(os.open(path, os.O_RDONLY), 0)
        os.dup2(os.open(out_path, os.O_WRONLY | os.O_CREAT | os.O_TRUNC), 1)
        os.dup2(os.open(out_path + ".err", os.O_WRONLY | os.O_CREAT | os.O_TRUNC), 2)
        os.execv(words[0], words)

    def stop(*_):
        os.kill(child, signal.SIGKILL)

    signal.signal(signal.SIGALRM, stop)
    signal.alarm(seconds)
    _, ended, usage = os.wait4(child, 0)
    wall = time.monotonic() - begin
    status = os.waitstatus_to_exitcode(ended)
    size = os.path.getsize(out_path)
    with open(out_path, "rb") as file:
        first = file.read(60).split(b"\n")[0].decode(errors="replace")
    noise = os.path.getsize(out_path + ".err")
    os.remove(out_path)
    os.remove(out_path + ".err")
    print(status, f"{wall:.3f}", f"{usage.ru_utime + usage.ru_stime:.3f}", usage.ru_maxrss, size, noise, first)


if __name__ == "__main__":
    main()
