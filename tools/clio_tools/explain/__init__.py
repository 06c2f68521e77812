"""What clio-explain says of a refusal, and what it warns of without one."""
