"""osb-replay-log: replays logs of any length, parted by instance, on an engine that has workers."""
