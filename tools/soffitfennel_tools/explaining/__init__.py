"""The parts of ./bench --explain: the bytes of a command, templates, the card's files as a log shows them, reasons."""
