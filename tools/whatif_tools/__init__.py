"""What the tools around whatif share: scripts, replies, formulas and spreadsheets."""
