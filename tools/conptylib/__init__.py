"""What the tools share. None of it is part of what is proved: it stands outside, by the program's formats."""
