"""Tests of the program osb-replay, and what the tests of its traces and of osb-replay-log share with them."""
