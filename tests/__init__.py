"""Tests of the programs and the scripts."""
