# Commands of gdb for a run of `dthreads debug`. guest/dthreads-gdb loads this file; any other gdb does by `source`.

# How many seconds gdb waits for an answer: a busy host may take longer than gdb's two to start the program.
set remotetimeout 30

# A run is read-only: gdb says so itself, without asking.
set may-write-memory off
set may-write-registers off
set may-call-functions off

define turn
  if $argc == 1
    pipe monitor turn $arg0 | { ! grep "no such position"; }
  else
    pipe monitor turn $arg0 $arg1 | { ! grep "no such position"; }
  end
  if $_shell_exitcode == 0
    reverse-stepi
  end
end
document turn
Go to a turn of the run: turn N [K].
N is the number of the turn's line in the trace. K is how many of the turn's instructions have been executed, 0 if it is not given.
end

define when
  monitor where
end
document when
Show the turn, the phase, the thread and the step of the present position.
end

define threads
  monitor threads
end
document threads
Show the status of each guest thread, and which memory it shows.
end

define writers
  eval "monitor writers 0x%x %d", (unsigned int) &($arg0), (int) sizeof ($arg0)
end
document writers
List the turns so far that changed a variable in the shared memory: writers VARIABLE.
end
