"""What makes the pages of `tools/explore`, and what opens them in a browser for `tools/check_pages`."""
