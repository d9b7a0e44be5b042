"""The updates and Fetches on the wire, against Python's json and urllib."""
