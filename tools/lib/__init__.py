"""What the scripts of tools/ share, by concern."""
