"""What `tools/dt` does: here a module for each command that has parts, and shared/ has what several use. gate/ has the modules that `.ci/run`
calls, users/ those that are installed or make a program from a clone, and maintainers/ sweeps, measurements, tests that are run by hand, and
writers of pages. kit and repository are here, where dt_mutants/lock.py names them.
"""
# (a module is imported by its name, whichever folder it is in)
__path__ += [f"{__path__[0]}/{it}" for it in ("shared", "gate", "users", "maintainers")]
