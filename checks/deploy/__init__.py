"""Tests of the files in deploy/, and of the lists of metrics in docs/operating.md."""
