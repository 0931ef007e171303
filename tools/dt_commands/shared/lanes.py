"""Work side by side: how many lanes this machine has room for, and tasks that ask for more tasks."""
import os
import queue
import threading

# What a lane is likely to take of memory, in bytes.
LANE_MEMORY = 2_500_000_000
# The help of the option `--lanes`.
HELP = "how many at a time (default: one a processor, but one for each 2.5 GB of free memory)"
# In how many seconds of silence it is said that the work goes on.
SILENCE = 60


def free_memory():
    """Returns the bytes of memory that are free."""
    with open("/proc/meminfo", encoding="utf-8") as lines:
        found = dict(line.split(":") for line in lines)
    return 1024 * int(found["MemAvailable"].split()[0])


def count(wanted=None):
    """Returns the wanted number of lanes, or else one for each processor that this process may run on, but one for each 2.5 GB of free
    memory, and at least one."""
    return wanted or max(1, min(len(os.sched_getaffinity(0)), free_memory() // LANE_MEMORY))


def tasks_in_lanes(lane_count, tasks, ended, still=None):
    """Works on tasks in their order. A task is an owner and a call; what the call returns goes to `ended` with its owner, and the tasks
    that this returns come before those that wait. An error of a call is raised. `still(owners)` is called in every minute in which no
    task ends. An interrupt ends it at once, and waits for no task that runs."""
    waiting, running, results = list(tasks), [], queue.Queue()

    def go(owner, call):
        try:
            results.put((owner, call(), None))
        except BaseException as error:
            results.put((owner, None, error))

    while waiting or running:
        while waiting and len(running) < lane_count:
            owner, call = waiting.pop(0)
            running.append(owner)
            threading.Thread(target=go, args=(owner, call), daemon=True).start()
        try:
            owner, result, error = results.get(timeout=SILENCE)
        except queue.Empty:
            if still:
                still(running)
            continue
        running.remove(owner)
        if error:
            raise error
        waiting[:0] = ended(owner, result)
