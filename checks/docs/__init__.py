"""Tests of the documents: every block of code is run, or compared with what it shows, or copied in from a file."""
