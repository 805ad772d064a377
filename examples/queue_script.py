#!/usr/bin/env python3
"""A script for `hog_runner replay`: 2,000 jobs with random priorities and moments, takes on both queues,
runs, answers, heartbeats, put-backs, lost workers, forged locks and sweeps.

    queue_script.py [SEED] [JOBS] > script.json
    hog_runner replay < script.json

The same seed gives the same script. docs/CHECKING.md has the sum of what it gave over a queue of plain rows."""
import json
import random
import sys

WORKERS = 16
SOURCES = [
    "return 1;",
    "let t := 0; while (t < 20) { t := t + 1; } return t;",
    "let r := fetch('https://h/a'); return r.status;",
    "let a := fetch('https://h/a'); let b := fetch('https://h/b'); print(a.status, b.status); return b.body;",
    "throw Error('x', 'boom');",
]


def enqueue(rng, now):
    priority = rng.choice([0, 0, 0, 1, -1, 2, rng.randint(-32768, 32767)])
    at = max(0, now + rng.choice([0, 0, -5000, rng.randint(-20000, 120000)]))
    return ["enqueue", rng.choice(SOURCES), {"n": rng.randint(0, 9)}, priority, at]


def act(rng, worker, holds, now):
    """A step of a worker, which is thought to hold this: the queue of a lease, `done` after work, or nothing."""
    dice = rng.random()
    if holds is None:
        queue = "hog" if rng.random() < 0.7 else "fetch"
        return ["take", worker, queue, now], queue
    if dice < 0.10:
        return ["beat", worker, max(0, now - rng.choice([0, 0, 0, 1000, 40000]))], holds
    if dice < 0.25:
        return ["back", worker, max(0, now + rng.choice([0, 1, -1000, rng.randint(0, 90000)]))], None
    if dice < 0.29:
        return ["lose", worker], None
    if holds == "hog":
        return ["work", worker, rng.choice([1, 3, 20, 1000, 1000])], "done"
    if holds == "fetch":
        return ["answer", worker, rng.choice([200, 404, 500]), {"k": rng.randint(0, 99)}], "done"
    return ["flush", worker], None


def script(seed, jobs):
    rng = random.Random(seed)
    now, made, steps = 50000, 0, []
    holds = [None] * WORKERS
    for _ in range(jobs * 2 // 5):
        steps.append(enqueue(rng, now))
        made += 1
    while made < jobs or len(steps) < 8 * jobs:
        now += rng.choice([0, 0, 1, 100, rng.randint(0, 1500)])
        dice = rng.random()
        if made < jobs and dice < 0.15:
            steps.append(enqueue(rng, now))
            made += 1
        elif dice < 0.20:
            steps.append(["sweep", now + rng.choice([0, 0, -1, 29999, 30000])])
        elif dice < 0.205:
            steps.append(["forge", rng.randrange(WORKERS), rng.randrange(max(1, made)), rng.randint(1, len(steps))])
        else:
            worker = rng.randrange(WORKERS)
            step, holds[worker] = act(rng, worker, holds[worker], now)
            steps.append(step)
    for _ in range(3 * WORKERS + 8):
        now += 40000
        steps.append(["sweep", now])
    return steps


def main():
    seed = int(sys.argv[1]) if len(sys.argv) > 1 else 1
    jobs = int(sys.argv[2]) if len(sys.argv) > 2 else 2000
    json.dump(script(seed, jobs), sys.stdout, separators=(",", ":"))
    print()


main()
