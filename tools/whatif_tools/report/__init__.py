"""The page that whatif-report makes of a script."""
