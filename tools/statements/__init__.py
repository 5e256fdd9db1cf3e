"""The statements of docs/SQL.md for tools: a grammar, a chart parser, random token lists."""
