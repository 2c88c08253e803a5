"""The completions of plan_judge for bash, zsh and fish, which bin/check_completions makes from the program's help and tests."""
