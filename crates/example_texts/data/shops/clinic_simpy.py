"""The clinic of clinic.toml in SimPy 3 (Debian: python3-simpy3), to compare with: the same classes, routes, laws and patience.

Two things are only alike: a doctor who goes off, and the x-ray as it breaks down, are taken by a request that goes before all
others. Random numbers are Python's, so the means are alike and not the same.

    python3 examples/shops/clinic_simpy.py [TICKS]
"""
import random
import sys
import simpy

END = int(sys.argv[1]) if len(sys.argv) > 1 else 10080
r = random.Random(1)
env = simpy.Environment()
triage = simpy.Resource(env, 1)
room = simpy.PriorityResource(env, 4)
doctor = simpy.PriorityResource(env, 3)
xray = simpy.PriorityResource(env, 1)
left, dropped, ages, waited, visits = [0, 0], 0, [0, 0], [0, 0], [0, 0]


def geometric(mean, cap):
    return min(cap, 1 + int(r.expovariate(1 / mean)))


def serve(resource, priority, t):
    with resource.request(priority=priority) as q:
        yield q
        yield env.timeout(t)


def triaged(t):
    with triage.request() as q:
        yield q
        yield env.timeout(t)


def urgent():
    born = env.now
    yield from triaged(r.randint(1, 3))
    came = env.now
    with room.request(priority=0) as q:
        yield q
        waited[0] += env.now - came
        visits[0] += 1
        yield from serve(doctor, 0, r.randint(10, 40))
        if r.random() < .4:
            yield from serve(xray, 0, r.randint(5, 15))
            yield env.timeout(10)
            yield from serve(doctor, 0, r.randint(5, 20))
    left[0] += 1
    ages[0] += env.now - born


def minor():
    global dropped
    born = env.now
    yield from triaged(r.randint(2, 6))
    came = env.now
    with room.request(priority=1) as q:
        got = yield q | env.timeout(r.randint(60, 240))
        waited[1] += env.now - came
        visits[1] += 1
        if q not in got:
            dropped += 1
            return
        yield from serve(doctor, 1, r.choices([5, 10, 15, 30], [4, 8, 5, 1])[0])
    left[1] += 1
    ages[1] += env.now - born


def arrivals(who, mean, cap):
    while True:
        env.process(who())
        yield env.timeout(geometric(mean, cap))


def off_at_night():
    while True:
        with doctor.request(priority=-1) as q:
            yield q
            day, now = divmod(env.now, 1440)
            yield env.timeout(480 - now if now < 480 else 1920 - now)
        yield env.timeout(1200 - env.now % 1440)


def breakdowns():
    while True:
        yield env.timeout(r.randint(1000, 3000))
        with xray.request(priority=-1) as q:
            yield q
            yield env.timeout(r.randint(30, 90))


for _ in range(2):
    env.process(off_at_night())
env.process(breakdowns())
env.process(arrivals(urgent, 60, 600))
env.process(arrivals(minor, 12, 120))
env.run(until=END)
print(left, dropped, "mean waits for a room", waited[0] / visits[0], waited[1] / visits[1], "ages", ages[0] / left[0], ages[1] / left[1])
