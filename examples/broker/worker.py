"""A worker: takes messages from the broker, has its relay answer them, and hands the answers on.

usage: worker.py PORT NAME

NAME is the worker's own among the consumers of the group. It ends at SIGTERM, behind its batch.
"""
import os
import signal
import sys
import time

import redis

from relay import Answer, Relay, RelayDied

HERE = os.path.dirname(os.path.abspath(__file__))
sys.path.insert(0, os.path.dirname(HERE))
from relay_program import frame_end, relay_program  # noqa: E402

MESSAGES, GROUP, ANSWERS, DEAD = "messages", "relays", "answers", "dead"
WORDS = ("schema.json", "calls.json", "1", "framed")
BATCH = 32
# Milliseconds behind which a message that was taken and not acknowledged is anybody's again.
IDLE = 1000
TRIES = 3


def taken(broker, name, look_back):
    """Messages that are now this worker's: those of workers that went away, then new ones."""
    if look_back:
        left = broker.xautoclaim(MESSAGES, GROUP, name, IDLE, count=BATCH)[1]
        if left:
            return left
    new = broker.xreadgroup(GROUP, name, {MESSAGES: ">"}, count=BATCH, block=20)
    return new[0][1] if new else []


def answered(relay, message):
    """The relay's answer; a message that isn't one frame never gets to the relay."""
    if frame_end(message, 0) != len(message):
        return Answer(b"not one frame", None)
    for _ in range(TRIES):
        try:
            return relay.answer(message)
        except RelayDied:
            continue
    return Answer(b"the relay died", None)


def hand_on(broker, relay, messages):
    """Answers messages, then hands the answers on and acknowledges behind them, all or none."""
    with broker.pipeline(transaction=True) as steps:
        for key, fields in messages:
            answer = answered(relay, fields[b"message"])
            if answer.frame is None:
                dead = {"key": key, "line": answer.line, "message": fields[b"message"]}
                steps.xadd(DEAD, dead)
            else:
                steps.xadd(ANSWERS, {"key": key, "frame": answer.frame})
        steps.xack(MESSAGES, GROUP, *(key for key, _fields in messages))
        steps.execute()


def main(port, name):
    """Works until it is told to stop."""
    ended = []
    signal.signal(signal.SIGTERM, lambda *_: ended.append(True))
    broker = redis.Redis(host="127.0.0.1", port=int(port), client_name=name)
    relay = Relay([relay_program(), *WORDS], HERE)
    relay.start()
    looked = 0.0
    while not ended:
        look_back = time.monotonic() > looked + IDLE / 1000
        messages = taken(broker, name, look_back)
        if look_back and len(messages) < BATCH:
            looked = time.monotonic()
        if messages:
            hand_on(broker, relay, messages)
    relay.stop()


if __name__ == "__main__":
    main(*sys.argv[1:])
