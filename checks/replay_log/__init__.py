"""Tests of osb-replay-log."""
