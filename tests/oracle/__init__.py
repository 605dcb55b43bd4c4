"""An independent reader, sealer and opener of messages, which share nothing with the crates."""
