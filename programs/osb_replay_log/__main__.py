"""Runs the program."""
from osb_replay_log.starting import start

if __name__ == "__main__":
    start("osb-replay-log", "osb_replay_log")
