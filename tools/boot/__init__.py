"""Boots of a tree that are driven by rules: what boot-test, draft-script and draft-test share."""
