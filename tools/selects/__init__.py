"""Random SELECTs, and a plain implementation of docs/SQL.md that answers them by a full scan."""
