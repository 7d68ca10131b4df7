"""Runs orders through one, two and four relays at a broker, kills some on the way, and prints what was lost.

usage: run.py [MESSAGES]

Ends with status 1 where a message is lost or answered wrongly, where none was killed, or where four workers
at four free processors are less than three times as fast as one.
"""
import itertools
import os
import resource
import signal
import subprocess
import sys
import tempfile
import time
from typing import NamedTuple

from broker import Broker
from orders import message

HERE = os.path.dirname(os.path.abspath(__file__))
# Seconds between two kills, and the most that one run may take.
EACH, LIMIT = 1.0, 300


class Outcome(NamedTuple):
    """What a run came to; the microseconds of processor time are those for a message."""

    rate: float
    of_workers: float
    of_broker: float
    killed: int
    dead: int
    lost: int
    doubled: int
    wrong: int


class Workers:
    """The worker processes, each with a name of its own."""

    def __init__(self, port, count):
        self.port, self.names, self.kills = port, itertools.count(1), 0
        self.due = None
        self.live = [self.started() for _ in range(count)]

    def started(self):
        """A new worker."""
        words = [sys.executable, os.path.join(HERE, "worker.py"), str(self.port), f"worker-{next(self.names)}"]
        return subprocess.Popen(words)

    def kill_one(self):
        """Kills a worker, for which a new one starts, and at each second call only a worker's relay."""
        worker = self.live[self.kills // 2 % len(self.live)]
        if self.kills % 2:
            with open(f"/proc/{worker.pid}/task/{worker.pid}/children", encoding="ascii") as file:
                relays = [int(word) for word in file.read().split()]
            for relay in relays:
                os.kill(relay, signal.SIGKILL)
            self.kills += bool(relays)
        else:
            worker.kill()
            worker.wait()
            self.live[self.live.index(worker)] = self.started()
            self.kills += 1

    def kill_when_due(self):
        """Kills one each second, and the first half a second behind the first call."""
        self.due = self.due or time.monotonic() + EACH / 2
        if time.monotonic() > self.due:
            self.kill_one()
            self.due += EACH

    def stop(self):
        """Ends all."""
        for worker in self.live:
            worker.terminate()
        for worker in self.live:
            worker.wait()


def idle_processors():
    """How many processors have nothing to do, over a second."""

    def idle():
        with open("/proc/stat", encoding="ascii") as file:
            return sum(map(int, file.readline().split()[4:6]))

    before = idle()
    time.sleep(1)
    return (idle() - before) / os.sysconf("SC_CLK_TCK")


def wait_until(is_so, meanwhile=lambda: None):
    """Waits until something is so, and does something meanwhile."""
    end = time.monotonic() + LIMIT
    while not is_so():
        if time.monotonic() > end:
            raise TimeoutError("the messages aren't worked off")
        meanwhile()
        time.sleep(0.02)


def processor_time(broker):
    """The seconds of processor time that workers that ended took, with their relays, and the broker."""
    ended = resource.getrusage(resource.RUSAGE_CHILDREN)
    return ended.ru_utime + ended.ru_stime, broker.processor_time()


def counted(broker, count, times, kills):
    """The run's outcome, each answer compared with the one that its message should get."""
    seen, wrong, dead = [0] * count, 0, 0
    for number, frame, line in broker.outcomes():
        _sent, wanted, end = message(number)
        seen[number] += 1
        dead += frame is None
        wrong += frame != wanted or (end is not None and not line.endswith(end))
    doubled = sum(it - 1 for it in seen if it)
    rate, (of_workers, of_broker) = count / broker.seconds(), (it * 1e6 / count for it in times)
    return Outcome(rate, of_workers, of_broker, kills, dead, seen.count(0), doubled, wrong)


def run(broker, count, size, kills):
    """One run with so many workers."""
    broker.load(count)
    workers = Workers(broker.port, size)
    try:
        wait_until(lambda: broker.workers() == size)
        before = processor_time(broker)
        broker.share_out()
        wait_until(broker.is_done, workers.kill_when_due if kills else lambda: None)
    finally:
        workers.stop()
    times = [end - start for start, end in zip(before, processor_time(broker))]
    return counted(broker, count, times, workers.kills)


def main(count=100_000):
    """Prints the table, and returns the status."""
    free, rates, failed = idle_processors(), {}, False
    print(f"{count} messages, {os.cpu_count()} processors, {free:.1f} of them free")
    print("                                processor us/message")
    print("workers  messages/s  times one  workers and relays  broker  killed  dead letters  lost  doubled  wrong")
    with tempfile.TemporaryDirectory() as folder:
        broker = Broker(folder)
        try:
            for size, kills in ((1, False), (2, False), (4, False), (1, True), (4, True)):
                it = run(broker, count, size, kills)
                rates.setdefault((size, kills), it.rate)
                times = it.rate / rates[1, False]
                print(
                    f"{size:7}  {it.rate:10.0f}  {times:9.2f}"
                    f"  {it.of_workers:18.0f}  {it.of_broker:6.0f}  {it.killed:6}"
                    f"  {it.dead:12}  {it.lost:4}  {it.doubled:7}  {it.wrong:5}",
                    flush=True,
                )
                failed |= bool(it.lost or it.wrong or it.dead == 0 or kills and not it.killed)
        finally:
            broker.stop()
    times = rates[4, False] / rates[1, False]
    if free < 3.8:
        print("the processors weren't free, so the rates are not judged")
    elif times < 3:
        print(f"four workers are {times:.2f} times as fast as one, and not three times")
        failed = True
    return int(failed)


if __name__ == "__main__":
    sys.exit(main(*map(int, sys.argv[1:])))
