"""Runs a package of this folder: `run.py osb_replay_log ARGUMENT ..`. So no module is taken from the current folder."""
import runpy
import sys

if __name__ == "__main__":
    runpy.run_module(sys.argv.pop(1), run_name="__main__", alter_sys=False)
