"""What examples/c/xcp_server.c computes, for tests that measure it: the values of its variables by the trigger of their task."""

import math

STATES = ["off", "starting", "running", "stopping"]


def rounded(number):
    """As lround in C."""
    return math.floor(abs(number) + 0.5) * (1 if number >= 0 else -1)


def fast_at(turn):
    """Of the task of 1 ms, but for the stamp."""
    angle = 2 * 3.14159265358979 * (turn % 1000) / 1000
    return {"counter": turn, "engine_speed": rounded(4 * (3000 + 2000 * math.sin(angle))) / 4, "torque": (turn % 1000 - 500) / 2,
            "distance": turn / 1000}


def slow_at(turn):
    """Of the task of 10 ms."""
    return {"slow_counter": turn, "voltage": 12 + turn % 8 / 4, "temperature": 80 + turn % 50, "state": STATES[turn // 25 % 4]}


def is_of_one_trigger(values):
    """Whether values by name, among which is a counter, are those of its trigger; stamps are passed over."""
    wanted = fast_at(int(values["counter"])) if "counter" in values else slow_at(int(values["slow_counter"]))
    return all(name.endswith("stamp") or value == (wanted[name] if isinstance(value, str) else float(wanted[name]))
               for name, value in values.items())
