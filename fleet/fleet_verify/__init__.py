"""Verifies the boot logs and measurement lists of many machines on many computers, by Dask's `distributed`."""

__version__ = "1.0.0"
