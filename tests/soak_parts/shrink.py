"""Makes a failing list small: the steps that can go go."""
import time


def smaller(steps, fails, seconds=120):
    """A list of some of the steps, in their order, that still fails; no step of it can go alone, if there was time enough."""
    size, end = max(1, len(steps) // 2), time.monotonic() + seconds
    while steps and time.monotonic() < end:
        at, before = 0, len(steps)
        while at < len(steps) and time.monotonic() < end:
            shorter = steps[:at] + steps[at + size:]
            if fails(shorter):
                steps = shorter
            else:
                at += size
        if size == 1 and len(steps) == before:
            break
        size = max(1, min(size // 2, len(steps) // 2))
    return steps
