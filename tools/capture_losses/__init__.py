"""The parts of tools/losses, which tells what a capture of a network lost."""
