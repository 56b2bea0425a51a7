"""What tests/program.py runs: a module for each theme, whose tests are test cases of `unittest`."""
