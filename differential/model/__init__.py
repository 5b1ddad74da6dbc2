"""A model of the collectors, written from docs/PROFILE.md and the formats that it names, apart from the programs."""
