"""Compares what libosb reads of answers and requests with Python's json and urllib."""
