"""For gdb: walks through a run by stepi, and looks at the lists of callers on the way. Each must end where a thread begins."""
import gdb

BEGINNINGS = {"_start", "dthreads_thread_entry", "dthreads_thread_park", "dthreads_plain_entry"}
# How many instructions lie between two looks, and after how many looks the lists of all threads are looked at.
STRIDE, EVERY = 3, 50


def callers():
    """Returns the names of the selected thread's frames."""
    frame, names = gdb.newest_frame(), []
    while frame is not None and len(names) < 100:
        names.append(frame.name() or hex(frame.pc()))
        frame = frame.older()
    return names


def look(wrong):
    names = callers()
    if names[-1] not in BEGINNINGS:
        wrong.append(" < ".join(names))


def walk():
    """Steps to the end of the run, where a step doesn't leave its place in _exit. Returns how often it looked, and the wrong lists."""
    count, wrong = 0, []
    while True:
        look(wrong)
        if count % EVERY == 0:
            first = gdb.selected_thread()
            for thread in gdb.selected_inferior().threads():
                thread.switch()
                look(wrong)
            first.switch()
        before = gdb.newest_frame().pc()
        gdb.execute(f"stepi {STRIDE}", to_string=True)
        if gdb.newest_frame().name() == "_exit" and gdb.newest_frame().pc() == before:
            return count, wrong
        count += 1


gdb.execute("set backtrace past-main on")
gdb.execute("set suppress-cli-notifications on")
looks, found = walk()
print(f"{len(found)} wrong lists of callers at {'over a thousand' if looks > 1000 else looks} instructions")
for it in sorted(set(found)):
    print(it)
