"""Tests of the tools beside `geo`."""
