"""Weight tables of a MySQL or MariaDB server, written as files that mycoll reads."""
