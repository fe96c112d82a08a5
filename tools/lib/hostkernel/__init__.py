"""Runs bundles on the kernel of this host, and compares each answer with that of pvsim: one process of the host for each simulated process."""
