"""The tests of bin/tournament, which bin/check_tournament runs."""
