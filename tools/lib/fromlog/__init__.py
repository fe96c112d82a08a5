"""Makes sources of pvsim from logs of system calls: one reader for each kind of log, one translation of calls into instructions, one writer of sources."""
