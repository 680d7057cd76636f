"""Busy processes, which take the processors from what runs beside them."""
import os
import subprocess
import sys

# how many there are for each processor
FOR_EACH = 2

# counts for as long as the process goes on that started it
SPINS = "import os, sys\nwhile os.getppid() == int(sys.argv[1]):\n    for _ in range(1_000_000): pass"


class Busy:
    """Within this context so many busy processes go on for each of these processors. `faults` tells if one has not."""

    def __init__(self, processors, for_each=FOR_EACH):
        self.processors = [it for it in sorted(processors) for _ in range(for_each)]
        self.processes, self.used, self.faults = [], 0, []

    def __enter__(self):
        for processor in self.processors:
            started = subprocess.Popen([sys.executable, "-c", SPINS, str(os.getpid())])
            self.processes.append(started)
            os.sched_setaffinity(started.pid, {processor})
        return self

    def __exit__(self, *_):
        """Ends them, and adds up the seconds of a processor that they have used."""
        for started in self.processes:
            if started.poll() is not None:
                self.faults.append("a busy process has ended with %d" % started.returncode)
                continue
            started.kill()
            _, _, used = os.wait4(started.pid, 0)
            started.returncode = -9
            self.used += used.ru_utime + used.ru_stime
