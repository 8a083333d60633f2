"""Runs a command and tells its status, its seconds and the most memory that it held.

Seconds are those that a processor worked for the command, in it and in the system, so that other
work on the machine counts little. It is a small process of its own, since the system counts the
memory of the process that starts a command as the command's own: what needs less than this one
(about 11 MB) is told as what this needs.
"""
import collections
import os
import subprocess
import sys

Result = collections.namedtuple('Result', 'status seconds peak')


def measure(words, stdout='/dev/null'):
    """Runs a command with its output in a file. The peak is in bytes."""
    run = subprocess.run([sys.executable, '-S', '-E', os.path.abspath(__file__), stdout] + words,
                         stdout=subprocess.PIPE, check=True)
    status, seconds, peak = run.stdout.split()
    return Result(int(status), float(seconds), 1024 * int(peak))


def held(words):
    """The most memory that a command held, in bytes, also where that is little: the system tells it
    while the command runs, so the last of it may be missed where a command ends at its peak."""
    peak = 0
    run = subprocess.Popen(words, stdin=subprocess.DEVNULL, stdout=subprocess.DEVNULL)
    while run.poll() is None:
        with open(f'/proc/{run.pid}/status', encoding='utf-8') as lines:
            for line in lines:
                if line.startswith('VmHWM:'):
                    peak = max(peak, 1024 * int(line.split()[1]))
    return peak


def main():
    out = os.open(sys.argv[1], os.O_WRONLY | os.O_CREAT | os.O_TRUNC, 0o666)
    words = sys.argv[2:]
    none = os.open('/dev/null', os.O_RDONLY)
    actions = [(os.POSIX_SPAWN_DUP2, none, 0), (os.POSIX_SPAWN_DUP2, out, 1),
               (os.POSIX_SPAWN_OPEN, 2, '/dev/null', os.O_WRONLY, 0)]
    child = os.posix_spawnp(words[0], words, os.environ, file_actions=actions)
    _, ended, used = os.wait4(child, 0)
    print(os.waitstatus_to_exitcode(ended), f'{used.ru_utime + used.ru_stime:.6f}', used.ru_maxrss)


if __name__ == '__main__':
    main()
