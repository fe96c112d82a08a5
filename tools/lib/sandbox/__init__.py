"""Finds the least arguments of the calls of pledge(2) and unveil(2) in a source of pvsim, and compares sources that differ in these calls."""
