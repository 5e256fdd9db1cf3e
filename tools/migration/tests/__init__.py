"""Tests of check_migration.py, whose mycoll is played by stand_in.py."""
