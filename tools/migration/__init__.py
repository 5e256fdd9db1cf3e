"""What check_migration.py is made of: a dump read once, statements for mycoll, a report."""
