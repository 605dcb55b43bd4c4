"""The folder that a user takes: what is in it, what it states, and how it is checked and tried."""
