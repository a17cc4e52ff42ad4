"""What the attacks on the programs share: images to ask about, damage to them, and a server of runs within bounds."""
