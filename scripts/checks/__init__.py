"""Programs that check: the whole repository, the must-fail edits, pages and sources."""
