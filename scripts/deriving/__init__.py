"""Commands that write derived files, or compare them."""
