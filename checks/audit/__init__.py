"""Checks of osb-audit: by journals that are written by hand, and by those of real programs."""
