"""Pictures as SVG, and the relay that one of them shows."""
