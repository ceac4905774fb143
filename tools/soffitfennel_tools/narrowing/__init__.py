"""The proved module for WebAssembly of 32 bits. README.md says what that rests on."""
