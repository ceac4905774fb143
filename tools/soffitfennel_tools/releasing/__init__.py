"""What a release is made of: commands, manual pages, completion, packages, archives and papers."""
