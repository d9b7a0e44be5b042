"""Tests of the page of osb-platform: as a program reads it, and as Chromium shows it."""
