"""What tools/page makes of web/, the module and the examples."""
