"""The prompt of ./bench at a terminal (docs/SCRIPT.md, "At a terminal")."""
