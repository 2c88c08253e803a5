"""The parts of bin/tournament: from planners' outputs to results and a site."""
