"""What the program has to reply, reckoned a second time by the rules of docs/RULES.md, and the lines to ask for it."""
