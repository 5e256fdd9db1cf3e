"""What a gate costs: its processes, their kinds of work, the crates' sizes, and the tables."""
