"""A program, not a test: how many requests a broker answers in a second, and how much memory it takes."""
