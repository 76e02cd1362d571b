"""Records a real Ninja build as the files that rebug replays. Standard library only."""

import signal

# The launcher has an interrupt wait while Python begins, which would end in a traceback there. The scripts have said by
# now what it does.
signal.pthread_sigmask(signal.SIG_UNBLOCK, {signal.SIGINT})
