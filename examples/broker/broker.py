"""A Redis server of one's own on loopback, and the group that shares its messages out."""
import socket
import subprocess
import time

import redis

from orders import message
from worker import ANSWERS, DEAD, GROUP, MESSAGES

PIECE = 1000


class Broker:
    """The server, in a folder of its own, on a free port; it keeps what it took in a file."""

    def __init__(self, folder):
        with socket.socket() as asked:
            asked.bind(("127.0.0.1", 0))
            self.port = asked.getsockname()[1]
        words = f"--bind 127.0.0.1 --port {self.port} --appendonly yes --logfile redis.log"
        self.server = subprocess.Popen(["redis-server", *words.split(), "--save", "", "--dir", folder])
        self.calls = redis.Redis(host="127.0.0.1", port=self.port)
        self.wait_until_up()

    def wait_until_up(self):
        """Waits until the server answers, five seconds at most."""
        for _ in range(100):
            try:
                return self.calls.ping()
            except redis.ConnectionError:
                time.sleep(0.05)
        raise TimeoutError("the broker doesn't answer")

    def stop(self):
        """Ends the server."""
        self.server.terminate()
        self.server.wait()

    def load(self, count):
        """Puts the messages in, by number; the group gets none of them before `share_out`."""
        self.calls.flushall()
        for start in range(0, count, PIECE):
            with self.calls.pipeline(transaction=False) as steps:
                for number in range(start, min(start + PIECE, count)):
                    steps.xadd(MESSAGES, {"message": message(number)[0]}, id=f"{number + 1}-0")
                steps.execute()
        self.calls.xgroup_create(MESSAGES, GROUP, id="$")

    def workers(self):
        """How many workers have connected."""
        return sum(it["name"] != "" for it in self.calls.client_list())

    def share_out(self):
        """Lets the group have the messages from the first on."""
        self.calls.xgroup_setid(MESSAGES, GROUP, id="0")

    def is_done(self):
        """Whether each message was taken and acknowledged."""
        group = self.calls.xinfo_groups(MESSAGES)[0]
        last = self.calls.xinfo_stream(MESSAGES)["last-generated-id"]
        return group["pending"] == 0 and group["last-delivered-id"] == last

    def outcomes(self):
        """Each answer and dead letter: its message's number, the frame or none, the line or none."""
        for stream in (ANSWERS, DEAD):
            first = "-"
            while entries := self.calls.xrange(stream, min=first, count=PIECE):
                for _key, it in entries:
                    yield int(it[b"key"].split(b"-")[0]) - 1, it.get(b"frame"), it.get(b"line")
                first = b"(" + entries[-1][0]

    def processor_time(self):
        """The seconds of processor time that the server took."""
        used = self.calls.info("cpu")
        return used["used_cpu_user"] + used["used_cpu_sys"]

    def seconds(self):
        """The time between the first answer and the last, by the broker's clock."""
        ends = self.calls.xrange(ANSWERS, count=1), self.calls.xrevrange(ANSWERS, count=1)
        first, last = (int(entries[0][0].split(b"-")[0]) for entries in ends)
        return (last - first) / 1000
