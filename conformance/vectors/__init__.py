"""The conformance suite of KRB-SAFE and KRB-PRIV: its cases, and what is made of an implementation's
verdicts."""
