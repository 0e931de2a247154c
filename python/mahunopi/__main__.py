import gc
import os
import signal
import sys

# what is imported stays: to look for garbage in it takes as long as 50 files of a report
gc.disable()
if not __package__:
    # started as a file: modules come from the folder of the package, and not from the one of this file
    here = os.path.dirname(os.path.realpath(__file__))
    sys.path[:] = [os.path.dirname(here), *(path for path in sys.path if path != here)]

from mahunopi.command import SIGNALS, main  # noqa: E402

gc.enable()
status = main()
# what comes now is too late to end anything
signal.pthread_sigmask(signal.SIG_BLOCK, SIGNALS)
# all is written, and to take the interpreter apart takes as long as a hundred files of a report
os._exit(status)
