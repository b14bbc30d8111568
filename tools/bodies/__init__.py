"""What tools/wrong-bodies is made of."""
