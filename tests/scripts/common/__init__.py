"""What the scripts of all modes share: how they are spelled, and the faults that each form can have."""
