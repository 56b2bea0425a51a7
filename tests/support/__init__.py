"""What the themes of tests/program.py, and the other scripts of this folder, share. A theme imports this and the
oracle, and no other theme."""
