"""Tests of the package geo_exact over the library, libgeo_c.so, which clients/python/build makes, or over the program in GEO_PROGRAM."""
